/* Memory that is refused at each request of opening a log, of acquiring a slot and of taking a page: the call says so,
 * keeps nothing, and the next one finds all as it was. No other call asks for memory. It is linked with --wrap=malloc
 * and
 * --wrap=free. */
#include "hl_log.h"

#include <stdio.h>
#include <stdlib.h>
#include <string.h>

enum { PAGE_SIZE = 64 };

void *__real_malloc(size_t size);
void *__wrap_malloc(size_t size);
void __real_free(void *at);
void __wrap_free(void *at);

static int wrong;
/* How many requests there were since it was set to 0, which of them is refused, none where it is 0, and how many pieces
 * are out. */
static unsigned requests, refused, out;

void *__wrap_malloc(size_t size) {
    requests++;
    if (requests == refused) return NULL;
    out++;
    return __real_malloc(size);
}

void __wrap_free(void *at) {
    if (at) out--;
    __real_free(at);
}

static void wants(const char *name, unsigned long long told, unsigned long long wanted) {
    if (told != wanted) {
        printf("%s: %llu and not %llu\n", name, told, wanted);
        wrong++;
    }
}

/* From now on the request of this number is refused. */
static void refuse(unsigned number) {
    requests = 0;
    refused = number;
}

static uint64_t opens(hl_log *log) { return hl_log_open(log, PAGE_SIZE, 2, 4, 4, 1000); }

static uint64_t opens_wide(hl_log *log) { return hl_log_open_wide(log, 8192, 2, 1024, 4096, 1000); }

static void openings(uint64_t (*open)(hl_log *)) {
    static const hl_log none = {0};
    hl_log log = {0};
    refuse(0);
    unsigned before = out;
    wants("an opening", open(&log), 0);
    unsigned all = requests;
    wants("a free", hl_log_free(&log), 0);
    wants("what is out after it", out, before);
    for (unsigned number = 1; number <= all; number++) {
        refuse(number);
        wants("a refused opening", open(&log), HL_OUT_OF_MEMORY);
        wants("its requests", requests, number);
        wants("its handle", (unsigned)memcmp(&log, &none, sizeof log), 0);
        wants("what is out", out, before);
    }
    refuse(0);
    wants("the next opening", open(&log), 0);
    wants("its free", hl_log_free(&log), 0);
    wants("what is out at last", out, before);
}

/* What a log has, but for what a call in between changed. */
static void is_as(const char *name, hl_log *log, const hl_quantities *was) {
    hl_quantities now = hl_log_snapshot(log);
    wants(name, (unsigned)(memcmp(&now, was, sizeof now) != 0), 0);
}

static void acquires(void) {
    static const hl_pass none = {0};
    hl_log log = {0};
    hl_pass pass = {0};
    refuse(0);
    opens(&log);
    unsigned before = out;
    refuse(0);
    wants("an acquire", hl_log_acquire(&log, &pass, 3).number, 0);
    unsigned all = requests;
    wants("a release", hl_log_release(&log, &pass).number, 0);
    wants("what is out after it", out, before);
    hl_quantities was = hl_log_snapshot(&log);
    for (unsigned number = 1; number <= all; number++) {
        refuse(number);
        wants("a refused acquire", hl_log_acquire(&log, &pass, 3).number, HL_OUT_OF_MEMORY);
        wants("its handle", (unsigned)memcmp(&pass, &none, sizeof pass), 0);
        wants("what is out", out, before);
        is_as("the log of a refused acquire", &log, &was);
    }
    refuse(0);
    wants("a slot that is occupied by nobody", hl_log_acquire(&log, &pass, 3).number, 0);
    wants("a pass of the next stamp", hl_log_refresh(&log, &pass).number, 0);
    hl_pass other = {0};
    wants("a slot that is taken", hl_log_acquire(&log, &other, 3).number, HL_OCCUPIED);
    wants("what is out with one pass", out, before + all);
    hl_log_release(&log, &pass);
    hl_log_free(&log);
}

/* Refuses each request of a take, and then makes it. */
static void takes(const char *name, hl_log *log, hl_page *page, hl_brief (*take)(hl_log *, hl_page *)) {
    static const hl_page none = {0};
    hl_quantities was = hl_log_snapshot(log);
    unsigned before = out, number = 1;
    for (;; number++) {
        refuse(number);
        hl_brief told = take(log, page);
        if (told.number != HL_OUT_OF_MEMORY) break;
        wants(name, (unsigned)memcmp(page, &none, sizeof *page), 0);
        wants(name, out, before);
        is_as(name, log, &was);
    }
    wants("a take asks for memory", number > 1, 1);
    wants(name, requests, number - 1);
    wants(name, out, before + number - 1);
    refuse(0);
}

static void pages(void) {
    hl_log log = {0};
    hl_pass pass = {0};
    hl_page page = {0};
    uint64_t words[PAGE_SIZE];
    refuse(0);
    unsigned before = out;
    opens(&log);
    hl_log_acquire(&log, &pass, 1);
    /* From here on the first request would be refused: none but the takes ask for memory. */
    refuse(1);
    wants("a first page", hl_log_allocate(&log, &pass, PAGE_SIZE).number, 0);
    wants("a second page", hl_log_allocate(&log, &pass, PAGE_SIZE).number, 0);
    wants("a store", hl_pass_store(&pass, 0, 11).number, 0);
    wants("a load", hl_pass_load(&pass, 0).a, 11);
    wants("an addition", hl_pass_fetch_add(&pass, 0, 1).a, 11);
    wants("an exchange", hl_pass_compare_exchange(&pass, 0, 12, 13).a, 12);
    wants("a raise", hl_log_raise(&log, PAGE_SIZE).number, 0);
    wants("a look", hl_pass_look(&pass).b, PAGE_SIZE);
    wants("a row", hl_pass_load_into(&pass, 0, words, PAGE_SIZE).number, 0);
    wants("a region", hl_pass_region(&pass, 0).a, HL_REGION_FUZZY);
    wants("a settle", hl_log_settle(&log).number, 0);
    wants("news", hl_pass_keeps_up(&pass), 0);
    wants("who holds it up", hl_log_holders(&log, 0).a, 1);
    wants("a refresh", hl_log_refresh(&log, &pass).number, 0);
    wants("a take", hl_log_take(&log).number, 0);
    wants("a done", hl_log_done(&log, 1).number, 0);
    wants("requests of all these", requests, 0);
    takes("a refused take of a page to flush", &log, &page, hl_log_flush_take);
    refuse(1);
    wants("a copy", hl_log_copy_page(&page, words, PAGE_SIZE).number, 0);
    wants("its first word", words[0], 13);
    wants("the end of the flush", hl_log_flush_done(&log, &page, true).number, 0);
    wants("a shift", hl_log_shift(&log, PAGE_SIZE).number, 0);
    wants("a close", hl_log_close(&log).number, 0);
    wants("one more refresh", hl_log_refresh(&log, &pass).number, 0);
    wants("its take", hl_log_take(&log).number, 0);
    wants("its done", hl_log_done(&log, 2).number, 0);
    wants("requests of these", requests, 0);
    takes("a refused take of a page to clean", &log, &page, hl_log_clean_take);
    refuse(1);
    wants("a sweep", hl_log_sweep(&page).number, 0);
    wants("the end of the cleaning", hl_log_clean_done(&log, &page).number, 0);
    wants("a seal", hl_log_seal(&log, &pass).a, 2 * PAGE_SIZE);
    wants("a bare bump", hl_log_bare(&log).number, 0);
    wants("a job", hl_log_bump(&log, 7).number, 0);
    wants("a release", hl_log_release(&log, &pass).number, 0);
    wants("requests of the last", requests, 0);
    wants("a free", hl_log_free(&log), 0);
    wants("what is out at last", out, before);
}

int main(void) {
    openings(opens);
    openings(opens_wide);
    acquires();
    pages();
    return wrong != 0;
}
