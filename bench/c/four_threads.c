/* Four threads under one mutex, over frames that go round: each allocates records and writes them through its view; who
 * can't allocate moves the log on, flushes and cleans. The words are this program's. */
#define _POSIX_C_SOURCE 200809L
#include "hl.h"

#include <pthread.h>
#include <sched.h>
#include <stdio.h>

enum { PAGE_SIZE = 8, FRAMES = 4, THREADS = 4, RECORDS = 2000, WORDS = 3 };

static hl_core core;
static pthread_mutex_t lock = PTHREAD_MUTEX_INITIALIZER;
static uint64_t cells[FRAMES * PAGE_SIZE];
static uint64_t flushed_pages, wrong;

static uint64_t *cell_of(uint64_t address) {
    return &cells[address / PAGE_SIZE % FRAMES * PAGE_SIZE + address % PAGE_SIZE];
}

/* Runs the actions that are ready, and flushes and cleans what is due. */
static void serve(void) {
    hl_outcome taken;
    while ((taken = hl_take(&core)).number == 0) {
        hl_done(&core, taken.a);
    }
    hl_brief next;
    while ((next = hl_flush_take(&core)).number == 0) {
        flushed_pages++;
        hl_flush_done(&core, next.a, true);
    }
    while ((next = hl_clean_take(&core)).number == 0) {
        for (uint64_t i = 0; i < PAGE_SIZE; i++) {
            *cell_of(next.a * PAGE_SIZE + i) = 0;
        }
        hl_clean_done(&core, next.a);
    }
}

/* Moves the offsets behind the tail's page, so that the oldest frames come free once every thread has refreshed. */
static void move_on(void) {
    hl_offsets six = hl_six(&core);
    uint64_t page_start = six.tail / PAGE_SIZE * PAGE_SIZE;
    if (page_start > six.read_only && hl_raise(&core, page_start).number == 0) {
        hl_settle(&core);
    }
    if (six.flushed > six.head && hl_shift(&core, six.flushed).number == 0) {
        hl_close(&core);
    }
    serve();
}

static void *ride(void *number) {
    uint64_t slot = (uint64_t)(uintptr_t)number;
    pthread_mutex_lock(&lock);
    wrong += hl_acquire(&core, slot).number != 0;
    pthread_mutex_unlock(&lock);
    for (uint64_t made = 0; made < RECORDS;) {
        pthread_mutex_lock(&lock);
        wrong += hl_refresh(&core, slot).number != 0;
        hl_brief at = hl_allocate(&core, slot, WORDS);
        if (at.number == 0) {
            for (uint64_t i = 0; i < WORDS; i++) {
                wrong += hl_write(&core, slot, at.a + i, made).number != 0 || *cell_of(at.a + i) != 0;
                *cell_of(at.a + i) = made + 1;
            }
            made++;
        } else {
            wrong += at.number != HL_BUSY;
            move_on();
        }
        pthread_mutex_unlock(&lock);
        /* The others have to refresh before a frame comes free. */
        sched_yield();
    }
    pthread_mutex_lock(&lock);
    wrong += hl_release(&core, slot).number != 0;
    pthread_mutex_unlock(&lock);
    return NULL;
}

int main(void) {
    pthread_t threads[THREADS];
    if (hl_open(&core, PAGE_SIZE, FRAMES, THREADS, 16) != 0) {
        return 1;
    }
    for (uintptr_t i = 0; i < THREADS; i++) {
        pthread_create(&threads[i], NULL, ride, (void *)i);
    }
    for (int i = 0; i < THREADS; i++) {
        pthread_join(threads[i], NULL);
    }
    hl_quantities all = hl_snapshot(&core);
    printf("records %d tail %llu protected %llu flushed some %d wrong %llu\n", THREADS * RECORDS,
           (unsigned long long)all.six.tail, (unsigned long long)all.protected_slots, flushed_pages > FRAMES,
           (unsigned long long)wrong);
    return hl_free(&core) == 0 && wrong == 0 ? 0 : 1;
}
