/* What each call of hl_log.h answers, in one thread and then in four. */
#define _POSIX_C_SOURCE 200809L
#include "hl_log.h"

#include <pthread.h>
#include <stdio.h>
#include <string.h>

enum { PAGE_SIZE = 64, THREADS = 4, TURNS = 50000 };

static int wrong;

static void wants(const char *name, uint64_t told, uint64_t wanted) {
    if (told != wanted) {
        printf("%s: %llu and not %llu\n", name, (unsigned long long)told, (unsigned long long)wanted);
        wrong++;
    }
}

static void wants_all(const char *name, hl_outcome told, hl_outcome wanted) {
    if (memcmp(&told, &wanted, sizeof told) != 0) {
        printf("%s: %llu %llu %llu %llu %llu\n", name, (unsigned long long)told.number, (unsigned long long)told.a,
               (unsigned long long)told.b, (unsigned long long)told.c, (unsigned long long)told.d);
        wrong++;
    }
}

static void wants_both(const char *name, hl_brief told, uint64_t number, uint64_t a) {
    wants(name, told.number, number);
    wants(name, told.a, a);
}

/* Each call where there is no log, no pass and no page. */
static void nothing_there(void) {
    hl_log log = {0};
    hl_pass pass = {0};
    hl_page page = {0};
    uint64_t words[PAGE_SIZE];
    wants("an acquire of no log", hl_log_acquire(&log, &pass, 0).number, HL_NO_CORE);
    wants("a refresh of no log", hl_log_refresh(&log, &pass).number, HL_NO_CORE);
    wants_all("a seal of no log", hl_log_seal(&log, &pass), (hl_outcome){HL_NO_CORE, 0, 0, 0, 0});
    wants("a raise of no log", hl_log_raise(&log, 1).number, HL_NO_CORE);
    wants("a take of no log", hl_log_take(&log).number, HL_NO_CORE);
    wants("a flush of no log", hl_log_flush_take(&log, &page).number, HL_NO_CORE);
    wants("offsets of no log", hl_log_six(&log).number, HL_NO_CORE);
    wants("quantities of no log", hl_log_snapshot(&log).number, HL_NO_CORE);
    wants("a lag of no log", hl_log_lag(&log, 1, 1).number, HL_NO_CORE);
    wants("holders of no log", hl_log_holders(&log, 0).number, HL_NO_CORE);
    wants("a free of no log", hl_log_free(&log), HL_NO_CORE);
    wants("a store of no pass", hl_pass_store(&pass, 0, 1).number, HL_NO_CORE);
    wants("a load of no pass", hl_pass_load(&pass, 0).number, HL_NO_CORE);
    wants("a look of no pass", hl_pass_look(&pass).number, HL_NO_CORE);
    words[0] = 7;
    wants("a row of no pass", hl_pass_load_into(&pass, 0, words, 1).number, HL_NO_CORE);
    wants("its place", words[0], 7);
    wants_all("a region of no pass", hl_pass_region(&pass, 0), (hl_outcome){HL_NO_CORE, 0, 0, 0, 0});
    wants("the news of no pass", hl_pass_keeps_up(&pass), HL_NO_CORE);
    wants("an end of no pass", hl_pass_abandon(&pass), HL_NO_CORE);
    wants("a copy of no page", hl_log_copy_page(&page, words, PAGE_SIZE).number, HL_NO_CORE);
    wants("a sweep of no page", hl_log_sweep(&page).number, HL_NO_CORE);
    wants("an end of no page", hl_page_abandon(&page), HL_NO_CORE);
}

static void sizes(void) {
    hl_log log = {0};
    wants("a page of three words", hl_log_open(&log, 3, 4, 4, 4, 1), HL_OUT_OF_RANGE);
    wants("a wide page in a narrow log", hl_log_open(&log, 8192, 4, 4, 4, 1), HL_OUT_OF_RANGE);
    wants("a wide page", hl_log_open_wide(&log, 8192, 4, 4, 4, 1), 0);
    wants("a log twice", hl_log_open(&log, 64, 4, 4, 4, 1), HL_NO_CORE);
    wants("a free", hl_log_free(&log), 0);
    wants("a free twice", hl_log_free(&log), HL_NO_CORE);
}

/* A pass by itself: what it may store and load, and what it sees. */
static void one_pass(void) {
    hl_log log = {0};
    hl_pass pass = {0}, other = {0};
    uint64_t words[3] = {1, 1, 1};
    hl_log_open(&log, PAGE_SIZE, 4, 4, 4, 1000);
    wants("a slot that isn't there", hl_log_acquire(&log, &pass, 4).number, HL_NO_SLOT);
    wants_all("an acquire", hl_log_acquire(&log, &pass, 2), (hl_outcome){0, 1, 0, 0, 0});
    wants("an acquire twice", hl_log_acquire(&log, &pass, 3).number, HL_NO_CORE);
    wants("a slot that is protected", hl_log_acquire(&log, &other, 2).number, HL_OCCUPIED);
    wants("no pass for it", hl_log_release(&log, &other).number, HL_NO_CORE);
    wants_all("a seal by no pass", hl_log_seal(&log, &other), (hl_outcome){HL_NO_CORE, 0, 0, 0, 0});
    wants("a store before any record", hl_pass_store(&pass, 0, 1).number, HL_BEYOND);
    wants_both("a record", hl_log_allocate(&log, &pass, 2), 0, 0);
    wants("a record of no words", hl_log_allocate(&log, &pass, 0).number, HL_SIZE);
    wants_both("a store", hl_pass_store(&pass, 1, 7), 0, 0);
    wants_both("a store beyond", hl_pass_store(&pass, 2, 7), HL_BEYOND, 2);
    wants_both("a load", hl_pass_load(&pass, 1), 0, 7);
    wants_both("a word that was never stored", hl_pass_load(&pass, 0), 0, 0);
    wants_both("a load beyond", hl_pass_load(&pass, 2), HL_BEYOND, 2);
    wants_both("a row", hl_pass_load_into(&pass, 0, words, 2), 0, 0);
    wants("its first word", words[0], 0);
    wants("its last word", words[1], 7);
    wants("the word behind it", words[2], 1);
    wants_both("a row that ends beyond", hl_pass_load_into(&pass, 0, words, 3), HL_BEYOND, 2);
    wants_both("a row above the tail", hl_pass_load_into(&pass, 3, words, 1), HL_BEYOND, 2);
    wants_both("no words", hl_pass_load_into(&pass, 3, words, 0), 0, 0);
    wants("a place that stays", words[0], 0);
    wants_all("a mutable word", hl_pass_region(&pass, 1), (hl_outcome){0, HL_REGION_MUTABLE, 0, 0, 0});
    wants_all("a word beyond", hl_pass_region(&pass, 2), (hl_outcome){HL_BEYOND, 2, 0, 0, 0});
    wants_both("an addition", hl_pass_fetch_add(&pass, 1, 5), 0, 7);
    wants_both("an exchange", hl_pass_compare_exchange(&pass, 1, 12, 20), 0, 12);
    wants_both("an exchange that found another", hl_pass_compare_exchange(&pass, 1, 12, 30), 0, 20);
    wants_both("a load after it", hl_pass_load(&pass, 1), 0, 20);
    wants("nothing new", hl_pass_keeps_up(&pass), 1);
    wants_both("a raise", hl_log_raise(&log, 1), 0, 1);
    wants("something new", hl_pass_keeps_up(&pass), 0);
    wants_both("a store before the look", hl_pass_store(&pass, 0, 3), 0, 0);
    wants_all("a look", hl_pass_look(&pass), (hl_outcome){0, 0, 1, 0, 2});
    wants("nothing new after the look", hl_pass_keeps_up(&pass), 1);
    wants_both("a store after the look", hl_pass_store(&pass, 0, 3), HL_BELOW, 1);
    wants_both("an addition after the look", hl_pass_fetch_add(&pass, 0, 3), HL_BELOW, 1);
    wants_both("an exchange after the look", hl_pass_compare_exchange(&pass, 0, 3, 4), HL_BELOW, 1);
    wants_both("a load after the look", hl_pass_load(&pass, 0), 0, 3);
    wants_all("a fuzzy word", hl_pass_region(&pass, 0), (hl_outcome){0, HL_REGION_FUZZY, 0, 0, 0});
    wants_both("an end of the epoch", hl_log_bare(&log), 0, 1);
    wants("an epoch that ended", hl_pass_keeps_up(&pass), 0);
    wants_all("a refresh", hl_log_refresh(&log, &pass), (hl_outcome){0, 2, 1, 0, 2});
    wants("nothing new after the refresh", hl_pass_keeps_up(&pass), 1);
    wants("a free before the release", hl_log_free(&log), 0);
    wants_both("a load of a log that is gone", hl_pass_load(&pass, 1), 0, 20);
    wants("an end of the pass", hl_pass_abandon(&pass), 0);
}

/* The greatest numbers, in each place where a call takes one. */
static void greatest(void) {
    hl_log log = {0}, other = {0};
    hl_pass pass = {0}, own = {0};
    hl_page page = {0};
    uint64_t word;
    wants("the greatest sizes", hl_log_open(&log, UINT64_MAX, UINT64_MAX, UINT64_MAX, UINT64_MAX, 1), HL_OUT_OF_RANGE);
    wants("so many frames", hl_log_open_wide(&log, 4, UINT64_MAX, 4, 4, 1), HL_OUT_OF_RANGE);
    wants("a page of half of all words", hl_log_open_wide(&log, UINT64_MAX / 2 + 1, 2, 4, 4, 1), HL_OUT_OF_RANGE);
    wants("the greatest stamp", hl_log_open(&log, PAGE_SIZE, 2, 4, 4, UINT64_MAX), 0);
    wants("so great a slot", hl_log_acquire(&log, &pass, UINT64_MAX).number, HL_NO_SLOT);
    wants("a slot", hl_log_acquire(&log, &pass, 3).number, 0);
    wants("so long a record", hl_log_allocate(&log, &pass, UINT64_MAX).number, HL_SIZE);
    wants_both("a record", hl_log_allocate(&log, &pass, 4), 0, 0);
    wants_both("a store so far up", hl_pass_store(&pass, UINT64_MAX, 1), HL_BEYOND, 4);
    wants_both("a load so far up", hl_pass_load(&pass, UINT64_MAX), HL_BEYOND, 4);
    wants_both("an addition so far up", hl_pass_fetch_add(&pass, UINT64_MAX, 1), HL_BEYOND, 4);
    wants_both("an exchange so far up", hl_pass_compare_exchange(&pass, UINT64_MAX, 0, 1), HL_BEYOND, 4);
    wants_both("a row so far up", hl_pass_load_into(&pass, UINT64_MAX, &word, 1), HL_BEYOND, 4);
    wants_all("a region so far up", hl_pass_region(&pass, UINT64_MAX), (hl_outcome){HL_BEYOND, 4, 0, 0, 0});
    wants_both("so great a word", hl_pass_store(&pass, 3, UINT64_MAX), 0, 0);
    wants_both("an addition to it", hl_pass_fetch_add(&pass, 3, 2), 0, UINT64_MAX);
    wants_both("their sum", hl_pass_load(&pass, 3), 0, 1);
    wants("a raise so far", hl_log_raise(&log, UINT64_MAX).number, HL_ABOVE_TAIL);
    wants("a shift so far", hl_log_shift(&log, UINT64_MAX - PAGE_SIZE + 1).number, HL_ABOVE_FLUSHED);
    wants("a done of so great a ticket", hl_log_done(&log, UINT64_MAX).number, HL_NOT_TAKEN);
    wants("a holder at so far a place", hl_log_holders(&log, UINT64_MAX).number, HL_OUT_OF_RANGE);
    wants("a lag of so many pages", hl_log_lag(&log, UINT64_MAX, UINT64_MAX).number, HL_OUT_OF_RANGE);
    wants("a copy of no page into so many places", hl_log_copy_page(&page, &word, UINT64_MAX).number, HL_NO_CORE);
    wants("a refresh of a stamp that began anew", hl_log_refresh(&log, &pass).number, 0);
    wants("a log of a small stamp", hl_log_open(&other, PAGE_SIZE, 2, 4, 4, 7), 0);
    wants("its slot", hl_log_acquire(&other, &own, 3).number, 0);
    wants_all("its pass", hl_log_refresh(&log, &own), (hl_outcome){HL_STRANGER, 0, 0, 0, 0});
    hl_log_release(&other, &own);
    hl_log_release(&log, &pass);
    hl_log_free(&other);
    hl_log_free(&log);
}

/* Passes of other logs, and of slots that others have now. */
static void strangers(void) {
    hl_log log = {0}, second = {0};
    hl_pass pass = {0}, own = {0};
    hl_log_open(&log, PAGE_SIZE, 4, 4, 4, 1000);
    hl_log_open(&second, PAGE_SIZE, 4, 4, 4, 5000);
    hl_log_acquire(&log, &pass, 0);
    wants_all("another log's, its slot empty", hl_log_refresh(&second, &pass), (hl_outcome){HL_STRANGER, 0, 0, 0, 0});
    hl_log_acquire(&second, &own, 0);
    wants_all("another log's", hl_log_refresh(&second, &pass), (hl_outcome){HL_STRANGER, 5001, 0, 0, 0});
    wants_both("its release", hl_log_release(&second, &pass), HL_STRANGER, 5001);
    wants_both("its record", hl_log_allocate(&second, &pass, 1), HL_STRANGER, 5001);
    wants("no record was placed", hl_log_six(&second).tail, 0);
    wants_both("a record of its own", hl_log_allocate(&second, &own, 3), 0, 0);
    wants_all("a seal by the other", hl_log_seal(&second, &pass), (hl_outcome){HL_STRANGER, 5001, 0, 0, 0});
    wants("no word was placed", hl_log_six(&second).tail, 3);
    wants_both("a release", hl_log_release(&second, &own), 0, 0);
    wants("a release twice", hl_log_release(&second, &own).number, HL_NO_CORE);
    wants_both("the first's own release", hl_log_release(&log, &pass), 0, 0);
    hl_log_free(&second);
    hl_log_free(&log);
}

/* Two pages full, and the epochs moved on until the first is sealed. */
static void sealed_page(hl_log *log, hl_pass *pass) {
    hl_log_open(log, PAGE_SIZE, 2, 2, 4, 1000);
    hl_log_acquire(log, pass, 1);
    wants_both("a first page", hl_log_allocate(log, pass, PAGE_SIZE), 0, 0);
    wants_both("a second page", hl_log_allocate(log, pass, PAGE_SIZE), 0, PAGE_SIZE);
    wants_both("a third page", hl_log_allocate(log, pass, PAGE_SIZE), HL_BUSY, 2);
    hl_pass_store(pass, 0, 11);
    hl_pass_store(pass, PAGE_SIZE - 1, 12);
    hl_log_raise(log, PAGE_SIZE);
    wants_both("a settle", hl_log_settle(log), 0, 1);
    wants_all("who holds it up", hl_log_holders(log, 0), (hl_outcome){0, 1, 1, 1, 1});
    wants("nobody else", hl_log_holders(log, 1).number, HL_OUT_OF_RANGE);
    wants_all("a take too early", hl_log_take(log), (hl_outcome){HL_NOT_READY, 1, 0, 0, 0});
    wants_all("a refresh", hl_log_refresh(log, pass), (hl_outcome){0, 2, PAGE_SIZE, 0, 2 * PAGE_SIZE});
    wants("nobody", hl_log_holders(log, 0).number, HL_OUT_OF_RANGE);
    wants_all("a take", hl_log_take(log), (hl_outcome){0, 1, 0, 0, 0});
    wants_all("a word before the done", hl_pass_region(pass, 0), (hl_outcome){0, HL_REGION_FUZZY, 0, 0, 0});
    wants_all("a done", hl_log_done(log, 1), (hl_outcome){0, PAGE_SIZE, HL_SETTLES, 0, 0});
    hl_region_told told = hl_as_region(hl_pass_region(pass, PAGE_SIZE - 1));
    wants("a read-only word", told.number == 0 && told.region == HL_REGION_READ_ONLY, 1);
    wants("the safe offset", told.safe_read_only, PAGE_SIZE);
}

static void pages(void) {
    hl_log log = {0}, second = {0};
    hl_pass pass = {0};
    hl_page page = {0};
    uint64_t words[PAGE_SIZE];
    hl_log_open(&second, PAGE_SIZE, 2, 2, 4, 5000);
    wants("no sealed page", hl_log_flush_take(&second, &page).number, HL_NONE_SEALED);
    sealed_page(&log, &pass);
    wants_both("a flush", hl_log_flush_take(&log, &page), 0, 0);
    wants("a flush into a page's handle", hl_log_flush_take(&log, &page).number, HL_NO_CORE);
    wants("a copy into few places", hl_log_copy_page(&page, words, PAGE_SIZE - 1).number, HL_SIZE);
    wants_both("a copy", hl_log_copy_page(&page, words, PAGE_SIZE), 0, 0);
    wants("its first word", words[0], 11);
    wants("its second word", words[1], 0);
    wants("its last word", words[PAGE_SIZE - 1], 12);
    wants("a sweep of a page in flight", hl_log_sweep(&page).number, HL_NOT_CLEANING);
    wants("a clean of it", hl_log_clean_done(&log, &page).number, HL_NOT_CLEANING);
    wants_both("the end by another log", hl_log_flush_done(&second, &page, true), HL_STRANGER, 5000);
    wants_both("a flush that failed", hl_log_flush_done(&log, &page, false), 0, 0);
    wants("the end of no page", hl_log_flush_done(&log, &page, true).number, HL_NO_CORE);
    wants_both("the flush again", hl_log_flush_take(&log, &page), 0, 0);
    wants_both("its end", hl_log_flush_done(&log, &page, true), 0, PAGE_SIZE);
    wants_both("a shift", hl_log_shift(&log, PAGE_SIZE), 0, PAGE_SIZE);
    wants("a head that is new", hl_pass_keeps_up(&pass), 0);
    wants_both("a load before the look", hl_pass_load(&pass, 0), 0, 11);
    hl_pass_look(&pass);
    wants_both("a load after the look", hl_pass_load(&pass, 0), HL_EVICTED, PAGE_SIZE);
    wants_both("an evicted row", hl_pass_load_into(&pass, PAGE_SIZE - 1, words, 2), HL_EVICTED, PAGE_SIZE);
    wants_all("an evicted word", hl_pass_region(&pass, 0), (hl_outcome){0, HL_REGION_EVICTED, PAGE_SIZE, 0, 0});
    wants_both("a close", hl_log_close(&log), 0, 2);
    hl_log_refresh(&log, &pass);
    hl_log_take(&log);
    wants_all("its done", hl_log_done(&log, 2), (hl_outcome){0, PAGE_SIZE, HL_CLOSES, 0, 0});
    wants_both("a clean", hl_log_clean_take(&log, &page), 0, 0);
    wants("a copy of a closed page", hl_log_copy_page(&page, words, PAGE_SIZE).number, HL_NOT_IN_FLIGHT);
    wants("a flush of it", hl_log_flush_done(&log, &page, true).number, HL_NOT_IN_FLIGHT);
    wants("the end before the sweep", hl_log_clean_done(&log, &page).number, HL_NOT_CLEANING);
    wants_both("a sweep", hl_log_sweep(&page), 0, 0);
    wants_both("the end", hl_log_clean_done(&log, &page), 0, 0);
    wants_both("the third page", hl_log_allocate(&log, &pass, PAGE_SIZE), 0, 2 * PAGE_SIZE);
    wants_both("a word of a swept frame", hl_pass_load(&pass, 2 * PAGE_SIZE), 0, 0);
    wants("a job", hl_log_bump(&log, 77).number, 0);
    hl_log_refresh(&log, &pass);
    wants_all("its take", hl_log_take(&log), (hl_outcome){0, 3, 1, 77, 0});
    wants_all("its end", hl_log_done(&log, 3), (hl_outcome){0, 77, HL_JOB, 0, 0});
    wants("the safe offset as before", hl_pass_region(&pass, PAGE_SIZE).b, PAGE_SIZE);
    hl_log_release(&log, &pass);
    hl_log_free(&log);
    hl_log_free(&second);
}

/* Carries out the action of a ticket, which is the oldest one, and settles what lies below an address. */
static void settles(hl_log *log, hl_pass *pass, uint64_t ticket, uint64_t address) {
    hl_log_refresh(log, pass);
    wants_all("a settle's take", hl_log_take(log), (hl_outcome){0, ticket, 0, 0, 0});
    wants_all("its done", hl_log_done(log, ticket), (hl_outcome){0, address, HL_SETTLES, 0, 0});
}

/* Takes a page to flush, which is to be this one, whose last word is this. */
static void flushes(hl_log *log, uint64_t number, uint64_t last) {
    hl_page page = {0};
    uint64_t words[PAGE_SIZE];
    wants_both("a page", hl_log_flush_take(log, &page), 0, number);
    wants_both("its copy", hl_log_copy_page(&page, words, PAGE_SIZE), 0, number);
    wants("its last word", words[PAGE_SIZE - 1], last);
    wants_both("its end", hl_log_flush_done(log, &page, true), 0, (number + 1) * PAGE_SIZE);
}

/* All up to the tail is sealed, in pages that aren't full. */
static void seals(void) {
    hl_log log = {0};
    hl_pass pass = {0}, other = {0};
    hl_page page = {0};
    hl_log_open(&log, PAGE_SIZE, 4, 2, 2, 1000);
    hl_log_acquire(&log, &pass, 0);
    wants_all("a seal of nothing", hl_log_seal(&log, &pass), (hl_outcome){0, 0, 0, 0, 0});
    wants_both("all words of a page but one", hl_log_allocate(&log, &pass, PAGE_SIZE - 1), 0, 0);
    wants_all("a seal", hl_log_seal(&log, &pass), (hl_outcome){0, PAGE_SIZE, 1, 1, 0});
    hl_offsets six = hl_log_six(&log);
    wants("its tail", six.tail, PAGE_SIZE);
    wants("its read-only offset", six.read_only, PAGE_SIZE);
    wants("its safe one", six.safe_read_only, 0);
    wants_both("a store before the look", hl_pass_store(&pass, PAGE_SIZE - 1, 7), 0, 0);
    wants_all("a look", hl_pass_look(&pass), (hl_outcome){0, 0, PAGE_SIZE, 0, PAGE_SIZE});
    wants_both("a store after it", hl_pass_store(&pass, 0, 7), HL_BELOW, PAGE_SIZE);
    wants("no sealed page", hl_log_flush_take(&log, &page).number, HL_NONE_SEALED);

    /* Another settle where one waits, and none where there is no place: the steps before it stay made. */
    wants_all("a seal once more", hl_log_seal(&log, &pass), (hl_outcome){0, PAGE_SIZE, 1, 2, 0});
    wants_both("a word", hl_log_allocate(&log, &pass, 1), 0, PAGE_SIZE);
    wants_all("a seal without a place", hl_log_seal(&log, &pass), (hl_outcome){HL_DRAIN_FULL, 0, 0, 0, 0});
    wants("its tail", hl_log_six(&log).tail, 2 * PAGE_SIZE);
    wants("its read-only offset", hl_log_six(&log).read_only, 2 * PAGE_SIZE);
    wants_both("a word that it placed", hl_pass_load(&pass, 2 * PAGE_SIZE - 1), 0, 0);
    settles(&log, &pass, 1, PAGE_SIZE);
    settles(&log, &pass, 2, PAGE_SIZE);
    hl_sealed sealed = hl_as_sealed(hl_log_seal(&log, &pass));
    wants("a seal that goes on", sealed.number == 0 && sealed.has_settle && sealed.ticket == 3, 1);
    wants("up to the tail", sealed.address, 2 * PAGE_SIZE);
    flushes(&log, 0, 7);
    wants("the second page isn't sealed", hl_log_flush_take(&log, &page).number, HL_NONE_SEALED);
    settles(&log, &pass, 3, 2 * PAGE_SIZE);
    flushes(&log, 1, 0);
    sealed = hl_as_sealed(hl_log_seal(&log, &pass));
    wants("a seal where all is sealed", sealed.number == 0 && !sealed.has_settle && sealed.ticket == 0, 1);
    wants("and all is flushed", hl_log_six(&log).flushed, sealed.address);

    /* A seal by a pass whose slot didn't allocate, and in no frame that isn't free. */
    hl_log_acquire(&log, &other, 1);
    wants_both("a whole page", hl_log_allocate(&log, &pass, PAGE_SIZE), 0, 2 * PAGE_SIZE);
    wants_both("the last frame", hl_log_allocate(&log, &pass, 1), 0, 3 * PAGE_SIZE);
    wants_all("another's seal", hl_log_seal(&log, &other), (hl_outcome){0, 4 * PAGE_SIZE, 1, 4, 0});
    wants("no frame is free", hl_log_allocate(&log, &pass, 1).number, HL_BUSY);

    /* As many epochs as may wait. */
    while (hl_log_bare(&log).number == 0) {
    }
    wants_all("an epoch too many", hl_log_seal(&log, &other), (hl_outcome){HL_WINDOW_FULL, 0, 0, 0, 0});
    hl_log_release(&log, &other);
    hl_log_release(&log, &pass);
    hl_log_free(&log);
}

static hl_log shared_log;
static pthread_mutex_t lock = PTHREAD_MUTEX_INITIALIZER;

/* Adds to one word beside all others, and stores and loads its own. */
static void *count(void *number) {
    uint64_t slot = (uint64_t)(uintptr_t)number;
    hl_pass pass = {0};
    pthread_mutex_lock(&lock);
    hl_log_acquire(&shared_log, &pass, slot);
    pthread_mutex_unlock(&lock);
    for (uint64_t i = 0; i < TURNS; i++) {
        hl_pass_store(&pass, slot, i);
        hl_brief own = hl_pass_load(&pass, slot);
        hl_brief all = hl_pass_fetch_add(&pass, 0, 1);
        if (own.number != 0 || own.a != i || all.number != 0) {
            puts("a thread's own word isn't what it stored");
            break;
        }
        if (hl_pass_keeps_up(&pass) == 0) {
            pthread_mutex_lock(&lock);
            hl_log_refresh(&shared_log, &pass);
            pthread_mutex_unlock(&lock);
        }
    }
    pthread_mutex_lock(&lock);
    hl_log_release(&shared_log, &pass);
    hl_log_bare(&shared_log);
    pthread_mutex_unlock(&lock);
    return NULL;
}

static void four_threads(void) {
    pthread_t threads[THREADS];
    hl_pass pass = {0};
    hl_log_open(&shared_log, PAGE_SIZE, 4, THREADS + 1, 4, 1);
    hl_log_acquire(&shared_log, &pass, 0);
    hl_log_allocate(&shared_log, &pass, THREADS + 1);
    for (uintptr_t i = 0; i < THREADS; i++) {
        pthread_create(&threads[i], NULL, count, (void *)(i + 1));
    }
    for (int i = 0; i < THREADS; i++) {
        pthread_join(threads[i], NULL);
    }
    wants_both("the sum", hl_pass_load(&pass, 0), 0, (uint64_t)THREADS * TURNS);
    wants("epochs ended meanwhile", hl_pass_keeps_up(&pass), 0);
    wants("as many as threads", hl_log_snapshot(&shared_log).epoch, THREADS + 1);
    hl_log_release(&shared_log, &pass);
    hl_log_free(&shared_log);
}

int main(void) {
    nothing_there();
    sizes();
    one_pass();
    greatest();
    strangers();
    pages();
    seals();
    four_threads();
    return wrong != 0;
}
