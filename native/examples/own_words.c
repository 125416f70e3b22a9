/* An append-only log: four threads append records, and one writes the pages to a file behind them. At the end the file
 * is read back and compared. The core lies under a mutex, the words beside it. Usage: own_words FILE */
#define _POSIX_C_SOURCE 200809L
#include <hl.h>

#include <pthread.h>
#include <sched.h>
#include <stdio.h>
#include <stdlib.h>
#include <string.h>

enum { PAGE_SIZE = 64, FRAMES = 16, THREADS = 4, RECORDS = 10000, LONGEST = 10 };

static hl_core core;
static pthread_mutex_t lock = PTHREAD_MUTEX_INITIALIZER;
static uint64_t cells[FRAMES * PAGE_SIZE];
static bool ended; /* under the lock */
static FILE *file;

static void fail(const char *what) {
    fprintf(stderr, "%s\n", what);
    exit(1);
}

/* An answer that is to be accepted: its first number. */
static uint64_t told(hl_brief answer) {
    if (answer.number != 0) {
        fail("a call was refused");
    }
    return answer.a;
}

/* A record: how many words it has, its thread, its number, and words that follow from both. Its length. */
static uint64_t record(uint64_t words[LONGEST], uint64_t thread, uint64_t number) {
    words[0] = 3 + number % 8;
    words[1] = thread;
    words[2] = number;
    for (uint64_t i = 3; i < words[0]; i++) {
        words[i] = thread * RECORDS + number + i;
    }
    return words[0];
}

/* The words of an address up to its page's end. */
static uint64_t *words_at(uint64_t address) {
    return &cells[address / PAGE_SIZE % FRAMES * PAGE_SIZE + address % PAGE_SIZE];
}

static void refresh(uint64_t slot) {
    if (hl_refresh(&core, slot).number != 0) {
        fail("a refresh was refused");
    }
}

/* Places a record and writes its words, which nobody else does until the next refresh, without the lock. */
static void append(uint64_t slot, const uint64_t *words, uint64_t count) {
    pthread_mutex_lock(&lock);
    hl_brief at = hl_allocate(&core, slot, count);
    while (at.number == HL_BUSY) {
        /* No frame is free: the oldest one comes back once every thread has moved on. */
        pthread_mutex_unlock(&lock);
        sched_yield();
        pthread_mutex_lock(&lock);
        refresh(slot);
        at = hl_allocate(&core, slot, count);
    }
    pthread_mutex_unlock(&lock);
    memcpy(words_at(told(at)), words, count * sizeof *words);
    pthread_mutex_lock(&lock);
    refresh(slot);
    pthread_mutex_unlock(&lock);
}

static void *append_all(void *number) {
    uint64_t slot = (uint64_t)(uintptr_t)number, words[LONGEST];
    pthread_mutex_lock(&lock);
    hl_outcome entered = hl_acquire(&core, slot);
    pthread_mutex_unlock(&lock);
    if (entered.number != 0) {
        fail("an acquire was refused");
    }
    for (uint64_t i = 0; i < RECORDS; i++) {
        append(slot, words, record(words, slot, i));
    }
    pthread_mutex_lock(&lock);
    told(hl_release(&core, slot));
    pthread_mutex_unlock(&lock);
    return NULL;
}

/* A sealed page goes to the file, without the lock: nobody writes its words any more. */
static void flush(uint64_t page) {
    pthread_mutex_unlock(&lock);
    bool ok = fseek(file, (long)(page * PAGE_SIZE * sizeof(uint64_t)), SEEK_SET) == 0 &&
              fwrite(words_at(page * PAGE_SIZE), sizeof(uint64_t), PAGE_SIZE, file) == PAGE_SIZE;
    pthread_mutex_lock(&lock);
    /* A page whose flush failed goes back, to be taken again; this program gives up. */
    told(hl_flush_done(&core, page, ok));
    if (!ok) {
        fail("the file takes no page");
    }
}

/* One turn of the thread that flushes, under the lock: it seals what lies below an address, writes sealed pages, and
 * frees what is old. */
static void serve(uint64_t seal_below) {
    hl_quantities now = hl_snapshot(&core);
    hl_outcome taken;
    hl_brief page;
    if (seal_below > now.six.read_only) {
        told(hl_raise(&core, seal_below));
    }
    if (now.pending == 0 && now.six.safe_read_only < now.six.read_only) {
        told(hl_settle(&core));
    }
    while ((taken = hl_take(&core)).number == 0) {
        hl_done(&core, taken.a);
    }
    while ((page = hl_flush_take(&core)).number == 0) {
        flush(page.a);
    }
    now = hl_snapshot(&core);
    if (now.six.flushed > now.six.head) {
        told(hl_shift(&core, now.six.flushed));
    }
    if (now.pending == 0 && now.six.closed < now.six.head) {
        told(hl_close(&core));
    }
    while ((page = hl_clean_take(&core)).number == 0) {
        memset(words_at(page.a * PAGE_SIZE), 0, PAGE_SIZE * sizeof(uint64_t));
        told(hl_clean_done(&core, page.a));
    }
}

static void *flush_all(void *unused) {
    (void)unused;
    for (bool goes_on = true; goes_on;) {
        pthread_mutex_lock(&lock);
        uint64_t tail = hl_six(&core).tail;
        /* At the end the tail is a page's end. */
        serve(tail / PAGE_SIZE * PAGE_SIZE);
        goes_on = !ended || hl_six(&core).flushed < tail;
        pthread_mutex_unlock(&lock);
        sched_yield();
    }
    return NULL;
}

/* A page is sealed once it ends below the safe read-only offset: an empty page ends the last one. */
static void end_last_page(void) {
    static const uint64_t empty[PAGE_SIZE];
    pthread_mutex_lock(&lock);
    hl_outcome entered = hl_acquire(&core, 0);
    pthread_mutex_unlock(&lock);
    if (entered.number != 0) {
        fail("an acquire was refused");
    }
    append(0, empty, PAGE_SIZE);
    pthread_mutex_lock(&lock);
    told(hl_release(&core, 0));
    ended = true;
    pthread_mutex_unlock(&lock);
}

/* Whether the file has each thread's records in their order, and nothing else. */
static bool is_as_appended(void) {
    uint64_t page[PAGE_SIZE], words[LONGEST], next[THREADS] = {0}, all = 0;
    if (fflush(file) != 0) {
        fail("the file takes no page");
    }
    rewind(file);
    while (fread(page, sizeof *page, PAGE_SIZE, file) == PAGE_SIZE) {
        /* What no record was placed on is 0, as is a page's end. */
        for (uint64_t at = 0; at < PAGE_SIZE && page[at] != 0; at += page[at]) {
            uint64_t thread = at + 1 < PAGE_SIZE ? page[at + 1] : THREADS;
            if (thread >= THREADS) {
                return false;
            }
            uint64_t count = record(words, thread, next[thread]++);
            if (at + count > PAGE_SIZE || memcmp(words, &page[at], count * sizeof *words) != 0) {
                return false;
            }
            all++;
        }
    }
    return all == THREADS * RECORDS;
}

int main(int count, char **words) {
    pthread_t threads[THREADS], flusher;
    if (count != 2 || !(file = fopen(words[1], "w+b"))) {
        fprintf(stderr, "usage: own_words FILE\n");
        return 2;
    }
    if (hl_open(&core, PAGE_SIZE, FRAMES, THREADS, 4) != 0) {
        fail("no core");
    }
    pthread_create(&flusher, NULL, flush_all, NULL);
    for (uintptr_t i = 0; i < THREADS; i++) {
        pthread_create(&threads[i], NULL, append_all, (void *)i);
    }
    for (int i = 0; i < THREADS; i++) {
        pthread_join(threads[i], NULL);
    }
    end_last_page();
    pthread_join(flusher, NULL);
    hl_free(&core);
    bool same = is_as_appended();
    fclose(file);
    printf("%d records of %d threads: %s\n", THREADS * RECORDS, THREADS,
           same ? "read back as appended" : "not as appended");
    return same ? 0 : 1;
}
