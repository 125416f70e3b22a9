/* hl: epoch protection and page frames after FASTER, as a core behind a handle.
 *
 * The calls are the steps and queries of docs/RULES.md. Each is proved: at whatever list of accepted steps the core
 * stood, the answer is that of the definitions (docs/DEFINITIONS.md), and a refused step changes nothing.
 *
 * A handle that is all zero has no core: `hl_core core = {0};`. Its fields are the library's: never read or write them,
 * and keep the handle where it is while a call uses it. Each handle that was opened is freed once, so never use two
 * copies of one: no answer would tell.
 *
 * Threads: a handle may go from thread to thread, but one call at a time may use it, so keep it under a lock of your
 * own. No call waits, and none but hl_open and hl_open_wide takes memory (by the program's malloc). No call is made
 * from a signal handler, or from the forked child of a process with threads.
 *
 * The core keeps no words and runs no jobs: the words of the frames are yours, and a done tells the tag of its job.
 */
#ifndef HL_H
#define HL_H

#include <stdbool.h>
#include <stdint.h>

#define HL_VERSION "0.2.0"
#define HL_VERSION_MAJOR 0
#define HL_VERSION_MINOR 2
#define HL_VERSION_PATCH 0

#ifdef __cplusplus
extern "C" {
#endif

typedef struct hl_core {
    void *at;
    uint64_t live;
} hl_core;

/* What a call answers. The number is 0 where the call was accepted; a to d are then its answer, and 0 where the call
 * below names none. Else the number is the fault's, or one of the two codes after the faults; a and b are then what the
 * fault carries. */
typedef struct hl_outcome {
    uint64_t number;
    uint64_t a;
    uint64_t b;
    uint64_t c;
    uint64_t d;
} hl_outcome;

/* The same for a step of which at most one number is told. */
typedef struct hl_brief {
    uint64_t number;
    uint64_t a;
} hl_brief;

/* The same answers by names: of an acquire, a refresh and a look (hl_look tells no epoch: 0). */
typedef struct hl_entered {
    uint64_t number;
    uint64_t epoch;
    uint64_t read_only;
    uint64_t head;
    uint64_t tail;
} hl_entered;

static inline hl_entered hl_as_entered(hl_outcome told) {
    hl_entered entered = {told.number, told.a, told.b, told.c, told.d};
    return entered;
}

/* Of a take. The tag is that of a job, else 0. */
typedef struct hl_taken {
    uint64_t number;
    uint64_t ticket;
    bool is_job;
    uint64_t tag;
} hl_taken;

static inline hl_taken hl_as_taken(hl_outcome told) {
    hl_taken taken = {told.number, told.a, told.number == 0 && told.b == 1, told.c};
    return taken;
}

/* Of a done, and of hl_pending, which alone tells a ticket and how many are pending. The kind is one of hl_kind; the value
 * is a job's tag, or an offset. */
typedef struct hl_action {
    uint64_t number;
    uint64_t kind;
    uint64_t value;
    uint64_t ticket;
    uint64_t count;
} hl_action;

static inline hl_action hl_as_done(hl_outcome told) {
    hl_action action = {told.number, told.b, told.a, 0, 0};
    return action;
}

static inline hl_action hl_as_pending(hl_outcome told) {
    hl_action action = {told.number, told.b, told.c, told.a, told.d};
    return action;
}

/* Of hl_frame. The state is one of hl_frame_state; the page is 0 where the frame has none. */
typedef struct hl_frame_told {
    uint64_t number;
    uint64_t state;
    bool has_page;
    uint64_t page;
} hl_frame_told;

static inline hl_frame_told hl_as_frame(hl_outcome told) {
    hl_frame_told frame = {told.number, told.a, told.number == 0 && told.b == 1, told.c};
    return frame;
}

/* The faults of docs/RULES.md that a call can meet. */
enum hl_fault {
    HL_NO_SLOT = 1,
    HL_OCCUPIED = 2,
    HL_NOT_PROTECTED = 3,
    HL_STALE = 4,
    HL_DRAIN_FULL = 5,
    HL_EPOCHS_SPENT = 6,
    HL_EMPTY = 7,
    HL_NOT_READY = 8, /* a: the front's ticket, b: the safe epoch */
    HL_NOT_TAKEN = 9,
    HL_NOT_ABOVE = 10,
    HL_ABOVE_TAIL = 11,
    HL_NOT_PAGE = 12,
    HL_ABOVE_FLUSHED = 13,
    HL_SIZE = 14,
    HL_BUSY = 15, /* a: the page that can't be entered */
    HL_SPACE_SPENT = 16,
    HL_BELOW = 17,   /* a: the view's read-only offset */
    HL_BEYOND = 18,  /* a: the view's tail */
    HL_EVICTED = 19, /* a: the view's head */
    HL_NONE_SEALED = 20,
    HL_NOT_IN_FLIGHT = 21,
    HL_NONE_CLOSED = 22,
    HL_NOT_CLEANING = 23,
    HL_STRANGER = 26, /* a: a stamp, told by hl_log.h alone */
    HL_DEVICE = 28,
    HL_OUT_OF_MEMORY = 29,
    HL_WINDOW_FULL = 32,
    /* no fault of the rules: */
    HL_OUT_OF_RANGE = 254, /* a size, a frame, a place in a list or a number of pages */
    HL_NO_CORE = 255,      /* no core is open at the handle */
    HL_IS_OPEN = 255       /* of an opening: a core is open at the handle already, and stays */
};

/* The version of the library that the program is linked with, as the library itself tells it. That of this header is
 * HL_VERSION: where the two differ, the header was taken from another folder. */
extern const char hl_version_text[];
static inline const char *hl_version(void) { return hl_version_text; }

/* The name of a fault, as docs/RULES.md has it, or of a code; "accepted" for 0, and "unknown" for others. */
static inline const char *hl_fault_name(uint64_t number) {
    switch (number) {
    case 0: return "accepted";
    case HL_NO_SLOT: return "NoSlot";
    case HL_OCCUPIED: return "Occupied";
    case HL_NOT_PROTECTED: return "NotProtected";
    case HL_STALE: return "Stale";
    case HL_DRAIN_FULL: return "DrainFull";
    case HL_EPOCHS_SPENT: return "EpochsSpent";
    case HL_EMPTY: return "Empty";
    case HL_NOT_READY: return "NotReady";
    case HL_NOT_TAKEN: return "NotTaken";
    case HL_NOT_ABOVE: return "NotAbove";
    case HL_ABOVE_TAIL: return "AboveTail";
    case HL_NOT_PAGE: return "NotPage";
    case HL_ABOVE_FLUSHED: return "AboveFlushed";
    case HL_SIZE: return "Size";
    case HL_BUSY: return "Busy";
    case HL_SPACE_SPENT: return "SpaceSpent";
    case HL_BELOW: return "Below";
    case HL_BEYOND: return "Beyond";
    case HL_EVICTED: return "Evicted";
    case HL_NONE_SEALED: return "NoneSealed";
    case HL_NOT_IN_FLIGHT: return "NotInFlight";
    case HL_NONE_CLOSED: return "NoneClosed";
    case HL_NOT_CLEANING: return "NotCleaning";
    case HL_STRANGER: return "Stranger";
    case HL_DEVICE: return "Device";
    case HL_OUT_OF_MEMORY: return "OutOfMemory";
    case HL_WINDOW_FULL: return "WindowFull";
    case HL_OUT_OF_RANGE: return "OutOfRange";
    case HL_NO_CORE: return "NoCore";
    default: return "unknown";
    }
}

/* What a done did, in b, and an action's kind, in b of hl_pending. */
enum hl_kind { HL_JOB = 1, HL_SETTLES = 2, HL_CLOSES = 3 };

/* A frame's state, in a of hl_frame and the order of hl_quantities.frames. */
enum hl_frame_state { HL_OPEN = 0, HL_SEALED = 1, HL_FLUSHED = 2, HL_CLOSED = 3, HL_FREE = 4 };

/* The offsets in their order, each at most the next; number is 0, or HL_NO_CORE. */
typedef struct hl_offsets {
    uint64_t number;
    uint64_t closed;
    uint64_t head;
    uint64_t flushed;
    uint64_t safe_read_only;
    uint64_t read_only;
    uint64_t tail;
} hl_offsets;

/* All quantities; number is 0, or HL_NO_CORE. frames counts those of each state. */
typedef struct hl_quantities {
    uint64_t number;
    uint64_t epoch;
    uint64_t safe;
    uint64_t protected_slots;
    uint64_t pending;
    uint64_t taken;
    hl_offsets six;
    uint64_t frames[5];
} hl_quantities;

/* What a step of hl_lag is, and the call that makes it. */
enum hl_lag_kind {
    HL_LAG_RAISE = 1,  /* hl_raise, to the address */
    HL_LAG_SETTLE = 2, /* hl_settle */
    HL_LAG_SHIFT = 3,  /* hl_shift, to the address */
    HL_LAG_CLOSE = 4   /* hl_close */
};

/* A step of hl_lag; the address is 0 where the kind has none. */
typedef struct hl_lag_step {
    uint64_t kind;
    uint64_t address;
} hl_lag_step;

/* The steps of hl_lag in their order, count of them, and then zeros; number is 0, HL_OUT_OF_RANGE or HL_NO_CORE. */
typedef struct hl_lag_steps {
    uint64_t number;
    uint64_t count;
    hl_lag_step steps[4];
} hl_lag_steps;

/* ---- A core. Every call below but the two that open answers HL_NO_CORE, and changes nothing, where none is open. ----
 */

/* Opens a core at the empty list: page_size words a page, a power of two from 4 to 4,096; 2 to 256 frames; 1 to 64
 * slots; 1 to 64 places in the drain list. 0 where it did. HL_IS_OPEN where one is open already, which stays;
 * HL_OUT_OF_RANGE where a size is; HL_OUT_OF_MEMORY where malloc refused. */
uint64_t hl_open(hl_core *core, uint64_t page_size, uint64_t frames, uint64_t slots, uint64_t drain_places);

/* The same for wide sizes: a page of up to 2^20 words, up to 2^16 frames, 1,024 slots and 4,096 places. */
uint64_t hl_open_wide(hl_core *core, uint64_t page_size, uint64_t frames, uint64_t slots, uint64_t drain_places);

/* Frees the core; the handle is then all zero, and may be opened again. 0, or HL_NO_CORE where none was open. */
uint64_t hl_free(hl_core *core);

/* ---- Slots ---- */

/* The thread of a slot becomes protected: a epoch, b to d its view (read-only offset, head, tail).
 * HL_NO_SLOT: the slot is S or more. HL_OCCUPIED: it is protected already. */
hl_outcome hl_acquire(hl_core *core, uint64_t slot);

/* The thread of a protected slot moves on: a epoch, b to d its view. HL_NO_SLOT, HL_NOT_PROTECTED. */
hl_outcome hl_refresh(hl_core *core, uint64_t slot);

/* The thread of a slot is protected no longer. HL_NO_SLOT, HL_NOT_PROTECTED. */
hl_brief hl_release(hl_core *core, uint64_t slot);

/* ---- Epochs and actions ---- */

/* Ends the current epoch, and stores a job of this tag: a its ticket. HL_DRAIN_FULL: the drain list is full.
 * HL_EPOCHS_SPENT: the epoch is the last, 2^62. HL_WINDOW_FULL: 4,096 epochs have ended and aren't safe. */
hl_brief hl_bump(hl_core *core, uint64_t tag);

/* As hl_bump; its action raises the safe read-only offset to what the read-only offset is now. */
hl_brief hl_settle(hl_core *core);

/* As hl_bump; its action raises the closed offset to what the head is now. */
hl_brief hl_close(hl_core *core);

/* Ends the current epoch, and stores nothing: a the epoch that ended. HL_EPOCHS_SPENT, HL_WINDOW_FULL. */
hl_brief hl_bare(hl_core *core);

/* Takes the oldest pending action: a its ticket, b 1 and c its tag where it is a job's. HL_EMPTY: none is pending.
 * HL_NOT_READY: its ticket isn't safe yet. */
hl_outcome hl_take(hl_core *core);

/* A taken action was carried out: b which it was; a the job's tag, or the safe read-only offset, or the closed offset
 * after it. HL_NOT_TAKEN: the ticket isn't that of an action taken and not done. */
hl_outcome hl_done(hl_core *core, uint64_t ticket);

/* ---- The log ---- */

/* Moves the read-only offset up: a the offset. HL_NOT_ABOVE: it isn't below the address. HL_ABOVE_TAIL: the address is
 * above the tail. */
hl_brief hl_raise(hl_core *core, uint64_t address);

/* Moves the head up: a the head. HL_NOT_ABOVE: it isn't below the address. HL_NOT_PAGE: no page begins there.
 * HL_ABOVE_FLUSHED: the address is above the flushed offset. */
hl_brief hl_shift(hl_core *core, uint64_t address);

/* Places a record of so many words for a slot: a its address. HL_NO_SLOT, HL_NOT_PROTECTED. HL_SIZE: no word, or more
 * than a page has. HL_SPACE_SPENT: it would end above 2^48. HL_BUSY: it would enter a page whose frame isn't free. */
hl_brief hl_allocate(hl_core *core, uint64_t slot, uint64_t words);

/* A slot sees these two offsets: b to d its view. HL_NO_SLOT, HL_NOT_PROTECTED. HL_STALE: one is below the view's. */
hl_outcome hl_look(hl_core *core, uint64_t slot, uint64_t read_only, uint64_t head);

/* Whether a slot may write this value to the word at an address; the word is yours to write. HL_NO_SLOT,
 * HL_NOT_PROTECTED. HL_BELOW: below the view's read-only offset. HL_BEYOND: at the view's tail or above. */
hl_brief hl_write(hl_core *core, uint64_t slot, uint64_t address, uint64_t value);

/* Whether a slot may read the word at an address. HL_NO_SLOT, HL_NOT_PROTECTED. HL_EVICTED: below the view's head.
 * HL_BEYOND: at the view's tail or above. */
hl_brief hl_read(hl_core *core, uint64_t slot, uint64_t address);

/* ---- Pages. Page p has the addresses from p * page_size on, and lies in frame p modulo the frames. ---- */

/* Takes the least sealed page that is neither flushed nor in flight: a the page. HL_NONE_SEALED: there is none. */
hl_brief hl_flush_take(hl_core *core);

/* The flush of a page ended, well or not: a the flushed offset. HL_NOT_IN_FLIGHT: the page isn't being flushed. */
hl_brief hl_flush_done(hl_core *core, uint64_t page, bool ok);

/* Takes the least closed page that is neither freed nor being cleaned: a the page. HL_NONE_CLOSED: there is none. */
hl_brief hl_clean_take(hl_core *core);

/* The words of a page are zeroed, and its frame is free: a the page. HL_NOT_CLEANING: the page isn't being cleaned. */
hl_brief hl_clean_done(hl_core *core, uint64_t page);

/* ---- Queries. They change nothing. ---- */

/* The six offsets. */
hl_offsets hl_six(hl_core *core);

/* All quantities. */
hl_quantities hl_snapshot(hl_core *core);

/* The steps that a flusher makes next, for whoever wants about mutable_pages pages at the tail to be written and about
 * resident_pages to be read: a raise, a settle, a shift and a close, in this order, each where its offset isn't there
 * yet (docs/FORMATS.md has the rule). They are yours to make. At the offsets as they are the raise and the shift are
 * accepted; the settle and the close can meet what hl_settle and hl_close do.
 * Ask where hl_snapshot tells that no action is pending and none is taken: an action takes effect when it is done, and
 * until then each call tells the settle or the close again.
 * HL_OUT_OF_RANGE: not 1 <= mutable_pages <= resident_pages < frames. With all frames resident, no page may be closed
 * before the next one needs its frame. */
hl_lag_steps hl_lag(hl_core *core, uint64_t mutable_pages, uint64_t resident_pages);

/* The pending action at a place, 0 being the oldest: a its ticket, b its kind, c its tag or the offset that it stores,
 * d how many are pending. HL_OUT_OF_RANGE: fewer are. */
hl_outcome hl_pending(hl_core *core, uint64_t place);

/* A frame: a its state, b 1 and c its page where it isn't free. HL_OUT_OF_RANGE: there is no such frame. */
hl_outcome hl_frame(hl_core *core, uint64_t frame);

/* A slot's view: a 1 and b to d the view where the slot is protected, else 0. HL_OUT_OF_RANGE: there is no such slot. */
hl_outcome hl_view(hl_core *core, uint64_t slot);

#ifdef __cplusplus
}
#endif

#endif
