/* A log of threads: four threads append records, each by a pass of its own, and one flushes the pages to a file behind
 * them and cleans their frames. At the end the file is read back and compared, and the counts of pages are. The log
 * lies under a mutex; words are stored, copied and swept without it. Usage: append_log FILE */
#define _POSIX_C_SOURCE 200809L
#include <hl_log.h>

#include <pthread.h>
#include <sched.h>
#include <stdio.h>
#include <stdlib.h>
#include <string.h>

enum { PAGE_SIZE = 64, FRAMES = 16, THREADS = 4, RECORDS = 10000, LONGEST = 10 };

static hl_log the_log;
static pthread_mutex_t lock = PTHREAD_MUTEX_INITIALIZER;
static bool ended;                    /* under the lock */
static uint64_t flushed, cleaned;     /* pages; the flusher's, until it is joined */
static uint64_t refreshed[THREADS];   /* how often a thread had something new to see; likewise */
static FILE *file;

static void fail(const char *what, uint64_t number) {
    fprintf(stderr, "%s: %s\n", what, hl_fault_name(number));
    exit(1);
}

/* An answer that is to be accepted: its first number. */
static uint64_t told(const char *what, hl_brief answer) {
    if (answer.number != 0) {
        fail(what, answer.number);
    }
    return answer.a;
}

/* A record: how many words it has, its thread, its number, and words that follow from both. Its length. */
static uint64_t record(uint64_t words[LONGEST], uint64_t thread, uint64_t number) {
    words[0] = 3 + number % 8;
    words[1] = thread;
    words[2] = number;
    for (uint64_t i = 3; i < words[0]; i++) {
        words[i] = thread * RECORDS + number + i;
    }
    return words[0];
}

/* Moves a pass's slot on, under the lock. */
static void refresh(hl_pass *pass) {
    hl_outcome entered = hl_log_refresh(&the_log, pass);
    if (entered.number != 0) {
        fail("a refresh", entered.number);
    }
}

/* Places a record, and stores its words without the lock. */
static void append(hl_pass *pass, const uint64_t *words, uint64_t count) {
    pthread_mutex_lock(&lock);
    hl_brief at = hl_log_allocate(&the_log, pass, count);
    while (at.number == HL_BUSY) {
        /* No frame is free: the oldest one comes back once every thread has moved on. */
        pthread_mutex_unlock(&lock);
        sched_yield();
        pthread_mutex_lock(&lock);
        refresh(pass);
        at = hl_log_allocate(&the_log, pass, count);
    }
    pthread_mutex_unlock(&lock);
    uint64_t address = told("an allocation", at);
    for (uint64_t i = 0; i < count; i++) {
        told("a store", hl_pass_store(pass, address + i, words[i]));
    }
}

static void *append_all(void *number) {
    uint64_t slot = (uint64_t)(uintptr_t)number, words[LONGEST];
    hl_pass pass = {0};
    pthread_mutex_lock(&lock);
    hl_outcome entered = hl_log_acquire(&the_log, &pass, slot);
    pthread_mutex_unlock(&lock);
    if (entered.number != 0) {
        fail("an acquire", entered.number);
    }
    for (uint64_t i = 0; i < RECORDS; i++) {
        append(&pass, words, record(words, slot, i));
        /* Most often nothing is new, and the lock isn't taken. */
        if (hl_pass_keeps_up(&pass) == 0) {
            pthread_mutex_lock(&lock);
            refresh(&pass);
            pthread_mutex_unlock(&lock);
            refreshed[slot]++;
        }
    }
    pthread_mutex_lock(&lock);
    told("a release", hl_log_release(&the_log, &pass));
    pthread_mutex_unlock(&lock);
    return NULL;
}

/* A sealed page goes to the file, without the lock: nobody stores to it any more. */
static void flush(hl_page *page, uint64_t number) {
    uint64_t words[PAGE_SIZE];
    told("a copy", hl_log_copy_page(page, words, PAGE_SIZE));
    bool ok = fseek(file, (long)(number * sizeof words), SEEK_SET) == 0 &&
              fwrite(words, sizeof *words, PAGE_SIZE, file) == PAGE_SIZE;
    pthread_mutex_lock(&lock);
    /* A page whose flush failed goes back, to be taken again; this program gives up. */
    told("the end of a flush", hl_log_flush_done(&the_log, page, ok));
    pthread_mutex_unlock(&lock);
    if (!ok) {
        fail("the file takes no page", 0);
    }
    flushed++;
}

/* A closed page is zeroed, without the lock: nobody loads from it any more. */
static void clean(hl_page *page) {
    told("a sweep", hl_log_sweep(page));
    pthread_mutex_lock(&lock);
    told("the end of a clean", hl_log_clean_done(&the_log, page));
    pthread_mutex_unlock(&lock);
    cleaned++;
}

/* Takes a page under the lock, if there is one. */
static bool take(hl_brief (*next)(hl_log *, hl_page *), hl_page *page, uint64_t *number) {
    pthread_mutex_lock(&lock);
    hl_brief taken = next(&the_log, page);
    pthread_mutex_unlock(&lock);
    *number = taken.a;
    return taken.number == 0;
}

/* Seals what lies below an address, and lets go of what is flushed, under the lock. */
static void move_offsets(uint64_t seal_below) {
    hl_quantities now = hl_log_snapshot(&the_log);
    hl_outcome taken;
    if (seal_below > now.six.read_only) {
        told("a raise", hl_log_raise(&the_log, seal_below));
    }
    if (now.six.flushed > now.six.head) {
        told("a shift", hl_log_shift(&the_log, now.six.flushed));
    }
    now = hl_log_snapshot(&the_log);
    if (now.pending == 0 && now.six.safe_read_only < now.six.read_only) {
        told("a settle", hl_log_settle(&the_log));
    }
    if (now.pending == 0 && now.six.closed < now.six.head) {
        told("a close", hl_log_close(&the_log));
    }
    while ((taken = hl_log_take(&the_log)).number == 0) {
        if (hl_log_done(&the_log, taken.a).number != 0) {
            fail("a done", taken.a);
        }
    }
}

static void *flush_all(void *unused) {
    (void)unused;
    for (bool goes_on = true; goes_on;) {
        hl_page page = {0};
        uint64_t number;
        pthread_mutex_lock(&lock);
        /* At the end a page begins at the tail. */
        uint64_t tail = hl_log_six(&the_log).tail;
        move_offsets(tail / PAGE_SIZE * PAGE_SIZE);
        goes_on = !ended || hl_log_six(&the_log).closed < tail;
        pthread_mutex_unlock(&lock);
        while (take(hl_log_flush_take, &page, &number)) {
            flush(&page, number);
        }
        while (take(hl_log_clean_take, &page, &number)) {
            clean(&page);
        }
        sched_yield();
    }
    return NULL;
}

/* Nothing more is appended: what is left of the last page is allocated, and all is sealed. */
static void seal_all(void) {
    hl_pass pass = {0};
    pthread_mutex_lock(&lock);
    hl_outcome entered = hl_log_acquire(&the_log, &pass, 0);
    if (entered.number != 0) {
        fail("an acquire", entered.number);
    }
    hl_sealed sealed = hl_as_sealed(hl_log_seal(&the_log, &pass));
    if (sealed.number != 0) {
        fail("a seal", sealed.number);
    }
    told("a release", hl_log_release(&the_log, &pass));
    ended = true;
    pthread_mutex_unlock(&lock);
}

/* Whether the file has each thread's records in their order, and nothing else. */
static bool is_as_appended(void) {
    uint64_t page[PAGE_SIZE], words[LONGEST], next[THREADS] = {0}, all = 0;
    if (fflush(file) != 0) {
        fail("the file takes no page", 0);
    }
    rewind(file);
    while (fread(page, sizeof *page, PAGE_SIZE, file) == PAGE_SIZE) {
        /* What no record was placed on is 0, as is a page's end. */
        for (uint64_t at = 0; at < PAGE_SIZE && page[at] != 0; at += page[at]) {
            uint64_t thread = at + 1 < PAGE_SIZE ? page[at + 1] : THREADS;
            if (thread >= THREADS) {
                return false;
            }
            uint64_t count = record(words, thread, next[thread]++);
            if (at + count > PAGE_SIZE || memcmp(words, &page[at], count * sizeof *words) != 0) {
                return false;
            }
            all++;
        }
    }
    return all == THREADS * RECORDS;
}

int main(int count, char **words) {
    pthread_t threads[THREADS], flusher;
    if (count != 2 || !(file = fopen(words[1], "w+b"))) {
        fprintf(stderr, "usage: append_log FILE\n");
        return 2;
    }
    if (hl_log_open(&the_log, PAGE_SIZE, FRAMES, THREADS, 4, 1) != 0) {
        fail("no log", 0);
    }
    pthread_create(&flusher, NULL, flush_all, NULL);
    for (uintptr_t i = 0; i < THREADS; i++) {
        pthread_create(&threads[i], NULL, append_all, (void *)i);
    }
    for (int i = 0; i < THREADS; i++) {
        pthread_join(threads[i], NULL);
    }
    seal_all();
    pthread_join(flusher, NULL);
    hl_quantities end = hl_log_snapshot(&the_log);
    uint64_t pages = end.six.tail / PAGE_SIZE;
    printf("%d records on %llu pages; refreshes:", THREADS * RECORDS, (unsigned long long)pages);
    for (int i = 0; i < THREADS; i++) {
        printf(" %llu", (unsigned long long)refreshed[i]);
    }
    puts("");
    if (flushed != pages || cleaned != pages || end.frames[HL_FREE] != FRAMES || end.protected_slots != 0) {
        fail("the pages aren't as counted", 0);
    }
    if (!is_as_appended()) {
        fail("the file isn't as it was appended", 0);
    }
    return hl_log_free(&the_log) == 0 && fclose(file) == 0 ? 0 : 1;
}
