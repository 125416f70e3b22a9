/* A log of threads at the greatest sizes of hl_log.h: each slot, frame and place, all pages taken at once, the longest
 * pages, and as many addresses as some seconds sweep. No clause says that memory is told as refused only where it is. */
#include "hl_log.h"

#include <stdio.h>
#include <stdlib.h>

enum { PAGE_SIZE = 4, FRAMES = 1 << 16, SLOTS = 1024, PLACES = 4096, LONGEST = 1 << 20 };

/* How many of the longest pages come and go: 2^30 addresses. */
enum { ROUNDS = 1 << 10 };

static int wrong;

static hl_pass passes[SLOTS];
static hl_page pages[FRAMES];

/* Of what is wrong the beginning is told. */
static void wants(const char *name, uint64_t told, uint64_t wanted) {
    if (told != wanted && wrong++ < 20) {
        printf("%s: %llu and not %llu\n", name, (unsigned long long)told, (unsigned long long)wanted);
    }
}

static void wants_both(const char *name, hl_brief told, uint64_t number, uint64_t a) {
    wants(name, told.number, number);
    wants(name, told.a, a);
}

/* The passes of so many slots move on, and then the oldest action is taken and done: its offset. */
static uint64_t ends_action(hl_log *log, uint64_t slots, uint64_t ticket) {
    for (uint64_t t = 0; t < slots; t++) {
        wants("a refresh", hl_log_refresh(log, &passes[t]).number, 0);
    }
    wants("a take", hl_log_take(log).a, ticket);
    hl_outcome done = hl_log_done(log, ticket);
    wants("a done", done.number, 0);
    return done.a;
}

/* Each slot has a pass, and the last of them fills each frame. */
static void fills(hl_log *log) {
    hl_pass none = {0};
    for (uint64_t t = 0; t < SLOTS; t++) {
        wants("each slot", hl_log_acquire(log, &passes[t], t).number, 0);
    }
    wants("a slot too many", hl_log_acquire(log, &none, SLOTS).number, HL_NO_SLOT);
    hl_pass *last = &passes[SLOTS - 1];
    for (uint64_t p = 0; p < FRAMES; p++) {
        wants_both("each page", hl_log_allocate(log, last, PAGE_SIZE), 0, p * PAGE_SIZE);
        wants_both("a word of it", hl_pass_store(last, p * PAGE_SIZE + PAGE_SIZE - 1, p + 1), 0, 0);
    }
    wants_both("a page too many", hl_log_allocate(log, last, 1), HL_BUSY, FRAMES);
    for (uint64_t c = 1; c <= PLACES; c++) {
        wants_both("each place", hl_log_bump(log, UINT64_MAX), 0, c);
    }
    wants("an action too many", hl_log_bump(log, 0).number, HL_DRAIN_FULL);
    for (uint64_t t = 0; t < SLOTS; t++) {
        wants("a refresh of each slot", hl_log_refresh(log, &passes[t]).number, 0);
    }
    for (uint64_t c = 1; c <= PLACES; c++) {
        wants("each action", hl_log_take(log).a, c);
        wants("its done", hl_log_done(log, c).number, 0);
    }
}

/* All pages are in flight at once, and then each is copied and flushed. */
static void flushes(hl_log *log) {
    uint64_t tail = (uint64_t)FRAMES * PAGE_SIZE, words[PAGE_SIZE];
    wants_both("a raise", hl_log_raise(log, tail), 0, tail);
    wants_both("a settle", hl_log_settle(log), 0, PLACES + 1);
    wants("the safe offset", ends_action(log, SLOTS, PLACES + 1), tail);
    for (uint64_t p = 0; p < FRAMES; p++) {
        wants_both("each flush", hl_log_flush_take(log, &pages[p]), 0, p);
    }
    for (uint64_t p = 0; p < FRAMES; p++) {
        wants_both("each copy", hl_log_copy_page(&pages[p], words, PAGE_SIZE), 0, p);
        wants("its last word", words[PAGE_SIZE - 1], p + 1);
        wants_both("the end of each flush", hl_log_flush_done(log, &pages[p], true), 0, (p + 1) * PAGE_SIZE);
    }
}

/* All pages are taken to be cleaned at once, then swept and freed, and the first frame is entered again. */
static void cleans(hl_log *log) {
    uint64_t tail = (uint64_t)FRAMES * PAGE_SIZE;
    wants_both("a shift", hl_log_shift(log, tail), 0, tail);
    wants_both("a close", hl_log_close(log), 0, PLACES + 2);
    wants("the closed offset", ends_action(log, SLOTS, PLACES + 2), tail);
    for (uint64_t p = 0; p < FRAMES; p++) {
        wants_both("each clean", hl_log_clean_take(log, &pages[p]), 0, p);
    }
    for (uint64_t p = 0; p < FRAMES; p++) {
        wants_both("each sweep", hl_log_sweep(&pages[p]), 0, p);
        wants_both("the end of each clean", hl_log_clean_done(log, &pages[p]), 0, p);
    }
    wants_both("the next page", hl_log_allocate(log, &passes[SLOTS - 1], PAGE_SIZE), 0, tail);
    wants_both("a word of a swept frame", hl_pass_load(&passes[SLOTS - 1], tail + PAGE_SIZE - 1), 0, 0);
    for (uint64_t t = 0; t < SLOTS; t++) {
        wants("each release", hl_log_release(log, &passes[t]).number, 0);
    }
}

static void greatest(void) {
    hl_log log = {0};
    wants("the greatest numbers of all but words", hl_log_open_wide(&log, PAGE_SIZE, FRAMES, SLOTS, PLACES, 1), 0);
    fills(&log);
    flushes(&log);
    cleans(&log);
    wants("its free", hl_log_free(&log), 0);
}

/* A page of the greatest size comes and goes by a pass that is acquired for it: two actions, a copy, a sweep. */
static void comes_and_goes(hl_log *log, uint64_t p, uint64_t *words) {
    hl_page page = {0};
    uint64_t at = p * LONGEST, end = at + LONGEST;
    wants("an acquire", hl_log_acquire(log, &passes[0], 0).number, 0);
    wants_both("a page", hl_log_allocate(log, &passes[0], LONGEST), 0, at);
    wants_both("its last word", hl_pass_store(&passes[0], end - 1, end), 0, 0);
    wants_both("a raise to its end", hl_log_raise(log, end), 0, end);
    wants("a settle", hl_log_settle(log).number, 0);
    wants("its offset", ends_action(log, 1, 2 * p + 1), end);
    wants_both("a flush", hl_log_flush_take(log, &page), 0, p);
    if (p % 64 == 0) {
        wants_both("a copy", hl_log_copy_page(&page, words, LONGEST), 0, p);
        wants("the word stored", words[LONGEST - 1], end);
        wants("a word that wasn't", words[LONGEST - 2], 0);
    }
    wants_both("the end of the flush", hl_log_flush_done(log, &page, true), 0, end);
    wants_both("a shift to its end", hl_log_shift(log, end), 0, end);
    wants("a close", hl_log_close(log).number, 0);
    wants("the closed offset", ends_action(log, 1, 2 * p + 2), end);
    wants_both("a clean", hl_log_clean_take(log, &page), 0, p);
    wants_both("a sweep", hl_log_sweep(&page), 0, p);
    wants_both("the end of the clean", hl_log_clean_done(log, &page), 0, p);
    wants("a release", hl_log_release(log, &passes[0]).number, 0);
}

static void many_addresses(void) {
    hl_log log = {0};
    uint64_t *words = malloc(LONGEST * sizeof *words);
    wants("the longest pages", hl_log_open_wide(&log, LONGEST, 2, SLOTS, PLACES, 1), 0);
    for (uint64_t p = 0; words && wrong == 0 && p < ROUNDS; p++) {
        comes_and_goes(&log, p, words);
    }
    wants("the last address", hl_log_six(&log).closed, (uint64_t)ROUNDS * LONGEST);
    wants("its free", hl_log_free(&log), 0);
    free(words);
}

int main(void) {
    greatest();
    many_addresses();
    return wrong != 0;
}
