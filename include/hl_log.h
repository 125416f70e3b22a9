/* hl_log: a log for threads, proved: the core of hl.h with the words of its frames, and a pass for each thread.
 *
 * A log lies behind one handle, which you keep under a lock of your own. Each thread has a pass behind a handle of its
 * own, for the slot that it acquired. Its stores, loads and looks take no lock, and run at the same time as all other
 * calls. Whoever flushes or cleans has a page behind a handle, whose words it copies or sweeps without the lock.
 *
 * The calls are the steps and queries of docs/RULES.md. Each is proved. At whatever list of accepted steps the log
 * stood, a call under the lock is answered as the definitions answer (docs/DEFINITIONS.md), and a refused step changes
 * nothing. A call of a pass begins with what the pass saw without the lock: that look is entered before its own step,
 * where the step is refused too. A store and a load are judged by what the pass sees, and each is one access of the
 * address's word. All accesses have one order, the same for all threads, in which a load finds what the newest store or
 * sweep before it left, or 0: the type of the words keeps that, and no clause of one call says it.
 *
 * A handle that is all zero has nothing: `hl_log log = {0};`. Its fields are the library's: never read or write them,
 * and keep the handle where it is while a call uses it. Never use two copies of one: no answer would tell.
 *
 * Threads: a handle may go from thread to thread, but one call at a time may use it. No call waits. Those that open,
 * acquire, and take a page take memory (by the program's malloc), and those that free, release, end the work on a page
 * and abandon give it back. A pass and a page own the words together with their log, so they may outlive it. Each call
 * writes to its handles: keep a pass's on its thread's stack, or on a cache line of its own.
 *
 * Stamps: the k-th acquire of a log gives the slot the log's stamp plus k. So a pass is told from those of other logs,
 * and from one that had the slot before, if no log has a stamp near another's: take 2^32 times the number of the log,
 * say. Fault 26, HL_STRANGER, tells the stamp of the slot, 0 where it is empty; for a page, the stamp of the log. */
#ifndef HL_LOG_H
#define HL_LOG_H

#include "hl.h"

#include <stddef.h>

#ifdef __cplusplus
extern "C" {
#endif

/* A log, with the core of hl.h; its calls are made under a lock of the caller's. */
typedef struct hl_log {
    void *at;
    uint64_t live;
} hl_log;

/* A thread's right to act for the slot that it acquired. */
typedef struct hl_pass {
    void *at;
    uint64_t live;
} hl_pass;

/* A page that was taken, to be flushed or to be cleaned. */
typedef struct hl_page {
    void *at;
    uint64_t live;
} hl_page;

/* ---- Under the lock: a log. Every call below but the two that open answers HL_NO_CORE, and changes nothing, where no
 * log is open. ---- */

/* Opens a log at the empty list, all words 0: page_size words a page, a power of two from 4 to 4,096; 2 to 256 frames;
 * 1 to 64 slots; 1 to 64 places in the drain list; a stamp. 0 where it did. HL_IS_OPEN where one is open already,
 * which stays; HL_OUT_OF_RANGE where a size is; HL_OUT_OF_MEMORY where malloc refused. */
uint64_t hl_log_open(
    hl_log *log, uint64_t page_size, uint64_t frames, uint64_t slots, uint64_t drain_places, uint64_t stamp);

/* The same for wide sizes: a page of up to 2^20 words, up to 2^16 frames, 1,024 slots and 4,096 places. */
uint64_t hl_log_open_wide(
    hl_log *log, uint64_t page_size, uint64_t frames, uint64_t slots, uint64_t drain_places, uint64_t stamp);

/* Frees the log; the handle is then all zero, and may be opened again. Its passes and pages stay, with the words, until
 * they are abandoned. 0, or HL_NO_CORE where none was open. */
uint64_t hl_log_free(hl_log *log);

/* ---- Under the lock: a pass. Each call answers HL_NO_CORE where the pass's handle has none. HL_STRANGER, a the slot's
 * stamp: the slot isn't the pass's; nothing is changed. ---- */

/* The slot becomes protected, and the pass acts for it: a its epoch, b to d its view (read-only offset, head, tail).
 * HL_NO_CORE where the handle has a pass already. HL_NO_SLOT, HL_OCCUPIED, and where neither holds HL_OUT_OF_MEMORY: the
 * handle stays empty. */
hl_outcome hl_log_acquire(hl_log *log, hl_pass *pass, uint64_t slot);

/* The slot moves on: a its epoch, b to d its view. */
hl_outcome hl_log_refresh(hl_log *log, hl_pass *pass);

/* Places a record of so many words for the slot: a its address. HL_SIZE, HL_SPACE_SPENT, HL_BUSY with a the page. */
hl_brief hl_log_allocate(hl_log *log, hl_pass *pass, uint64_t words);

/* The slot is protected no longer, and the pass is given back: its handle is all zero. */
hl_brief hl_log_release(hl_log *log, hl_pass *pass);

/* Seals all up to the tail, so that the last pages can be flushed: a the tail, which is then where a page begins; b 1 and
 * c its ticket where a settle was stored. It allocates the words that are left of the tail's page, raises the read-only
 * offset to the tail, and stores a settle, each where it is due. Once that settle was taken and is done, or at once where
 * b is 0, each page below a is sealed, and hl_log_flush_take gives those that aren't flushed or in flight.
 * HL_DRAIN_FULL, HL_EPOCHS_SPENT, HL_WINDOW_FULL: the settle is refused, as that of hl_log_settle; the other two steps
 * never are. They stay made, and another call goes on from there. A call while a settle waits stores one more. */
hl_outcome hl_log_seal(hl_log *log, hl_pass *pass);

/* The same by names. The ticket is 0 where no settle was stored. */
typedef struct hl_sealed {
    uint64_t number;
    uint64_t address;
    bool has_settle;
    uint64_t ticket;
} hl_sealed;

static inline hl_sealed hl_as_sealed(hl_outcome told) {
    hl_sealed sealed = {told.number, told.a, told.number == 0 && told.b == 1, told.c};
    return sealed;
}

/* ---- Under the lock: the steps of the log, as those of hl.h ---- */

/* Moves the read-only offset up: a the offset. HL_NOT_ABOVE, HL_ABOVE_TAIL. */
hl_brief hl_log_raise(hl_log *log, uint64_t address);

/* Moves the head up: a the head. HL_NOT_ABOVE, HL_NOT_PAGE, HL_ABOVE_FLUSHED. */
hl_brief hl_log_shift(hl_log *log, uint64_t address);

/* Ends the current epoch, and stores a job of this tag: a its ticket. HL_DRAIN_FULL, HL_EPOCHS_SPENT,
 * HL_WINDOW_FULL. */
hl_brief hl_log_bump(hl_log *log, uint64_t tag);

/* As a bump; its action raises the safe read-only offset to what the read-only offset is now. */
hl_brief hl_log_settle(hl_log *log);

/* As a bump; its action raises the closed offset to what the head is now. */
hl_brief hl_log_close(hl_log *log);

/* Ends the current epoch, and stores nothing: a the epoch that ended. HL_EPOCHS_SPENT, HL_WINDOW_FULL. */
hl_brief hl_log_bare(hl_log *log);

/* Takes the oldest pending action: a its ticket, b 1 and c its tag where it is a job's. HL_EMPTY, HL_NOT_READY. */
hl_outcome hl_log_take(hl_log *log);

/* A taken action was carried out: b which it was (hl_kind); a the job's tag, or the offset after it. HL_NOT_TAKEN. */
hl_outcome hl_log_done(hl_log *log, uint64_t ticket);

/* ---- Under the lock: pages. HL_NO_CORE where the page's handle has none; for a take, where it has one already.
 * ---- */

/* Takes the least sealed page that is neither flushed nor in flight: a the page. HL_NONE_SEALED where there is none, else
 * HL_OUT_OF_MEMORY: the handle stays empty. */
hl_brief hl_log_flush_take(hl_log *log, hl_page *page);

/* The flush of a page ended, well or not: a the flushed offset, and the page is given back. HL_STRANGER, a the log's
 * stamp: the page is of another log. HL_NOT_IN_FLIGHT: it was taken to be cleaned. */
hl_brief hl_log_flush_done(hl_log *log, hl_page *page, bool ok);

/* Takes the least closed page that is neither freed nor being cleaned: a the page. HL_NONE_CLOSED where there is none,
 * else HL_OUT_OF_MEMORY: the handle stays empty. */
hl_brief hl_log_clean_take(hl_log *log, hl_page *page);

/* The words of a page are zeroed, and its frame is free: a the page, which is given back. HL_STRANGER, a the log's
 * stamp: the page is of another log. HL_NOT_CLEANING: it was taken to be flushed, or it wasn't swept. */
hl_brief hl_log_clean_done(hl_log *log, hl_page *page);

/* ---- Under the lock: queries. They change nothing, and answer as those of hl.h. ---- */

hl_offsets hl_log_six(hl_log *log);

hl_quantities hl_log_snapshot(hl_log *log);

hl_lag_steps hl_log_lag(hl_log *log, uint64_t mutable_pages, uint64_t resident_pages);

/* The slot at a place among those that hold the oldest pending action up, 0 being the least: a the slot, b its epoch, c
 * the action's ticket, d how many slots hold it up. Each of them has to refresh or release before a take gives the
 * action. HL_OUT_OF_RANGE: fewer do, or no action is pending. */
hl_outcome hl_log_holders(hl_log *log, uint64_t place);

/* The same by names. */
typedef struct hl_holder {
    uint64_t number;
    uint64_t slot;
    uint64_t epoch;
    uint64_t ticket;
    uint64_t count;
} hl_holder;

static inline hl_holder hl_as_holder(hl_outcome told) {
    hl_holder holder = {told.number, told.a, told.b, told.c, told.d};
    return holder;
}

/* ---- Without the lock: a pass. Each call answers HL_NO_CORE where its handle has none. An address is judged by what
 * the pass sees: its view of the last call under the lock, and what a look brought since. ---- */

/* Stores a word. HL_BELOW, a the read-only offset that the pass sees: the address is below it. HL_BEYOND, a the tail
 * that it sees: the address isn't below it. Nothing is stored then. */
hl_brief hl_pass_store(hl_pass *pass, uint64_t address, uint64_t word);

/* Adds to a word in one step, modulo 2^64: a what it found. HL_BELOW, HL_BEYOND. */
hl_brief hl_pass_fetch_add(hl_pass *pass, uint64_t address, uint64_t more);

/* Stores a word where the word `current` stands, in one step: a what it found, so it stored where that is `current`.
 * HL_BELOW, HL_BEYOND. */
hl_brief hl_pass_compare_exchange(hl_pass *pass, uint64_t address, uint64_t current, uint64_t word);

/* Loads a word: a the word. HL_EVICTED, a the head that the pass sees: the address is below it. HL_BEYOND. */
hl_brief hl_pass_load(hl_pass *pass, uint64_t address);

/* Loads the words from an address on, one after another, into count places. HL_EVICTED, as of a load; HL_BEYOND, a the
 * tail that the pass sees: the last of them isn't below it. Nothing is loaded then. The pointer is never null. */
hl_brief hl_pass_load_into(hl_pass *pass, uint64_t address, uint64_t *words, size_t count);

/* What may be done to a word of the log. */
enum hl_region {
    HL_REGION_MUTABLE = 1,   /* the pass may store there */
    HL_REGION_FUZZY = 2,     /* the pass may store there no more, and another may still */
    HL_REGION_READ_ONLY = 3, /* no pass may store there */
    HL_REGION_EVICTED = 4    /* the pass may not load there: the word is on the device */
};

/* Which region the word of an address is in, by what the pass sees and the safe read-only offset as it is now: a the
 * region (hl_region), b that offset. HL_BEYOND, a the tail that the pass sees: the address isn't below it, nor evicted.
 * A word in the fuzzy region is read-only for all once each pass has moved on and the settle is done; till then what it
 * has may change. */
hl_outcome hl_pass_region(hl_pass *pass, uint64_t address);

/* The same by names. */
typedef struct hl_region_told {
    uint64_t number;
    uint64_t region;
    uint64_t safe_read_only;
} hl_region_told;

static inline hl_region_told hl_as_region(hl_outcome told) {
    hl_region_told region = {told.number, told.a, told.b};
    return region;
}

/* Sees the read-only offset and the head as they are now: b to d what the pass sees. They never fall. The next call
 * under the lock enters the look. */
hl_outcome hl_pass_look(hl_pass *pass);

/* 1 where nothing is new to the pass: neither offset is above the one that it sees, and the epoch of its slot has not
 * ended. 0 where something is: look or refresh. HL_NO_CORE where there is none. */
uint64_t hl_pass_keeps_up(hl_pass *pass);

/* Gives a pass back without its log. If its slot wasn't released, it stays protected for good. 0, or HL_NO_CORE where
 * there is none. */
uint64_t hl_pass_abandon(hl_pass *pass);

/* ---- Without the lock: a page. Each call answers HL_NO_CORE where its handle has none. ---- */

/* Copies the words of a page that was taken to be flushed into count places, of which it has page_size: a the page.
 * HL_SIZE: count isn't page_size. HL_NOT_IN_FLIGHT: it was taken to be cleaned. Nothing is copied then. The pointer is
 * never null. */
hl_brief hl_log_copy_page(hl_page *page, uint64_t *words, size_t count);

/* Zeroes the words of a page that was taken to be cleaned: a the page. HL_NOT_CLEANING: it was taken to be flushed;
 * nothing is zeroed then. */
hl_brief hl_log_sweep(hl_page *page);

/* Gives a page back without its log: it stays taken for good. 0, or HL_NO_CORE where there is none. */
uint64_t hl_page_abandon(hl_page *page);

#ifdef __cplusplus
}
#endif

#endif
