/* The error of each misuse by hl.h, and none within the greatest sizes. */
#include "hl.h"

#include <stdio.h>
#include <string.h>

static int wrong;

static void wants(const char *name, uint64_t told, uint64_t wanted) {
    if (told != wanted) {
        printf("%s: %llu and not %llu\n", name, (unsigned long long)told, (unsigned long long)wanted);
        wrong++;
    }
}

static void is_named(uint64_t number, const char *wanted) {
    if (strcmp(hl_fault_name(number), wanted) != 0) {
        printf("%llu: %s and not %s\n", (unsigned long long)number, hl_fault_name(number), wanted);
        wrong++;
    }
}

static void names(void) {
    is_named(0, "accepted");
    is_named(1, "NoSlot");
    is_named(15, "Busy");
    is_named(24, "unknown");
    is_named(255, "NoCore");
}

static void no_core(void) {
    hl_core core = {0};
    wants("a step of no core", hl_take(&core).number, HL_NO_CORE);
    wants("an acquire of no core", hl_acquire(&core, 0).number, HL_NO_CORE);
    wants("an allocation of no core", hl_allocate(&core, 0, 1).number, HL_NO_CORE);
    wants("offsets of no core", hl_six(&core).number, HL_NO_CORE);
    wants("quantities of no core", hl_snapshot(&core).number, HL_NO_CORE);
    wants("a lag of no core", hl_lag(&core, 1, 1).number, HL_NO_CORE);
    wants("a frame of no core", hl_frame(&core, 0).number, HL_NO_CORE);
    wants("a free of no core", hl_free(&core), HL_NO_CORE);
    wants("a first opening", hl_open(&core, 4, 2, 2, 1), 0);
    wants("a second opening", hl_open(&core, 4, 2, 2, 1), HL_NO_CORE);
    wants("a first free", hl_free(&core), 0);
    wants("a second free", hl_free(&core), HL_NO_CORE);
}

static void sizes(void) {
    static const uint64_t out_of_range[][4] = {{0, 2, 1, 1},
                                               {2, 2, 1, 1},
                                               {6, 2, 1, 1},
                                               {8192, 2, 1, 1},
                                               {4, 1, 1, 1},
                                               {4, 257, 1, 1},
                                               {4, 2, 0, 1},
                                               {4, 2, 65, 1},
                                               {4, 2, 1, 0},
                                               {4, 2, 1, 65},
                                               {UINT64_MAX, UINT64_MAX, 1, 1}};
    static const uint64_t out_of_wide_range[][4] = {{0, 2, 1, 1},
                                                    {2, 2, 1, 1},
                                                    {6, 2, 1, 1},
                                                    {1 << 21, 2, 1, 1},
                                                    {4, 1, 1, 1},
                                                    {4, 65537, 1, 1},
                                                    {4, 2, 0, 1},
                                                    {4, 2, 1025, 1},
                                                    {4, 2, 1, 0},
                                                    {4, 2, 1, 4097},
                                                    {UINT64_MAX, UINT64_MAX, 1, 1}};
    hl_core core = {0};
    for (unsigned i = 0; i < sizeof out_of_range / sizeof out_of_range[0]; i++) {
        const uint64_t *row = out_of_range[i];
        wants("sizes out of range", hl_open(&core, row[0], row[1], row[2], row[3]), HL_OUT_OF_RANGE);
        row = out_of_wide_range[i];
        wants("wide sizes out of range", hl_open_wide(&core, row[0], row[1], row[2], row[3]), HL_OUT_OF_RANGE);
    }
}

static void out_of_place(void) {
    hl_core core = {0};
    wants("an opening", hl_open(&core, 4, 2, 2, 1), 0);
    wants("a slot that isn't there", hl_acquire(&core, 2).number, HL_NO_SLOT);
    wants("a slot that isn't protected", hl_refresh(&core, 0).number, HL_NOT_PROTECTED);
    wants("a release without an acquire", hl_release(&core, 0).number, HL_NOT_PROTECTED);
    wants("a slot", hl_acquire(&core, 0).number, 0);
    wants("a slot twice", hl_acquire(&core, 0).number, HL_OCCUPIED);
    wants("a record of no word", hl_allocate(&core, 0, 0).number, HL_SIZE);
    wants("a record of more than a page", hl_allocate(&core, 0, 5).number, HL_SIZE);
    wants("a write at the tail", hl_write(&core, 0, 0, 1).number, HL_BEYOND);
    wants("a read at the tail", hl_read(&core, 0, 0).number, HL_BEYOND);
    wants("a raise above the tail", hl_raise(&core, 1).number, HL_ABOVE_TAIL);
    wants("a shift into a page", hl_shift(&core, 1).number, HL_NOT_PAGE);
    wants("a shift above what is flushed", hl_shift(&core, 4).number, HL_ABOVE_FLUSHED);
    wants("no action", hl_take(&core).number, HL_EMPTY);
    wants("a done of no action", hl_done(&core, 1).number, HL_NOT_TAKEN);
    wants("an action", hl_bump(&core, 1).number, 0);
    wants("a take before its slots moved on", hl_take(&core).number, HL_NOT_READY);
    wants("a second action in one place", hl_bump(&core, 1).number, HL_DRAIN_FULL);
    wants("a page where none is sealed", hl_flush_take(&core).number, HL_NONE_SEALED);
    wants("an end of no flush", hl_flush_done(&core, 0, true).number, HL_NOT_IN_FLIGHT);
    wants("a page where none is closed", hl_clean_take(&core).number, HL_NONE_CLOSED);
    wants("an end of no cleaning", hl_clean_done(&core, 0).number, HL_NOT_CLEANING);
    wants("a frame that isn't there", hl_frame(&core, 2).number, HL_OUT_OF_RANGE);
    wants("a view of a slot that isn't there", hl_view(&core, 2).number, HL_OUT_OF_RANGE);
    wants("a view of a slot that isn't protected", hl_view(&core, 1).number, 0);
    wants("a lag with no mutable page", hl_lag(&core, 0, 1).number, HL_OUT_OF_RANGE);
    wants("a lag with more mutable pages than resident ones", hl_lag(&core, 2, 1).number, HL_OUT_OF_RANGE);
    wants("a lag with all frames resident", hl_lag(&core, 1, 2).number, HL_OUT_OF_RANGE);
    wants("a place where nothing waits", hl_pending(&core, 1).number, HL_OUT_OF_RANGE);
    wants("the end", hl_free(&core), 0);
}

/* Answers by their names. */
static void named(void) {
    hl_core core = {0};
    wants("an opening", hl_open(&core, 4, 2, 2, 2), 0);
    wants("an opening of an open handle", hl_open(&core, 4, 2, 2, 2), HL_IS_OPEN);
    hl_entered entered = hl_as_entered(hl_acquire(&core, 0));
    wants("an epoch", entered.epoch, 1);
    wants("a record", hl_allocate(&core, 0, 4).a, 0);
    wants("a raise", hl_raise(&core, 4).a, 4);
    wants("a bump", hl_bump(&core, 7).a, 1);
    wants("a settle", hl_settle(&core).a, 2);
    hl_action pending = hl_as_pending(hl_pending(&core, 1));
    wants("what is pending", pending.kind, HL_SETTLES);
    wants("its ticket", pending.ticket, 2);
    wants("what it stored", pending.value, 4);
    wants("how many are pending", pending.count, 2);
    wants("a take that is refused", hl_as_taken(hl_take(&core)).number, HL_NOT_READY);
    entered = hl_as_entered(hl_refresh(&core, 0));
    wants("a view's offset", entered.read_only, 4);
    wants("a view's tail", entered.tail, 4);
    hl_taken taken = hl_as_taken(hl_take(&core));
    wants("a job", taken.is_job && taken.ticket == 1, 1);
    wants("its tag", taken.tag, 7);
    wants("a done of a job", hl_as_done(hl_done(&core, 1)).value, 7);
    wants("a settle is no job", hl_as_taken(hl_take(&core)).is_job, 0);
    hl_action done = hl_as_done(hl_done(&core, 2));
    wants("a done of a settle", done.kind, HL_SETTLES);
    wants("the safe offset", done.value, 4);
    hl_frame_told frame = hl_as_frame(hl_frame(&core, 0));
    wants("a frame", frame.has_page && frame.state == HL_SEALED, 1);
    wants("a frame without a page", hl_as_frame(hl_frame(&core, 1)).has_page, 0);
    wants("the end of names", hl_free(&core), 0);
}

/* A core of the greatest sizes has all its slots, frames and places, and no more. */
static void is_full(hl_core *core, uint64_t page_size, uint64_t frames, uint64_t slots, uint64_t places) {
    for (uint64_t i = 0; i < slots; i++) {
        wants("each slot", hl_acquire(core, i).number, 0);
    }
    wants("a slot too many", hl_acquire(core, slots).number, HL_NO_SLOT);
    for (uint64_t i = 0; i < frames; i++) {
        wants("each page", hl_allocate(core, slots - 1, page_size).number, 0);
    }
    wants("a page too many", hl_allocate(core, slots - 1, 1).number, HL_BUSY);
    for (uint64_t i = 0; i < places; i++) {
        wants("each place", hl_bump(core, UINT64_MAX).number, 0);
    }
    wants("an action too many", hl_bump(core, 0).number, HL_DRAIN_FULL);
    wants("the last action's place", hl_pending(core, places - 1).number, 0);
    wants("the greatest core's end", hl_free(core), 0);
}

static void greatest(void) {
    hl_core core = {0};
    wants("the greatest narrow sizes", hl_open(&core, 4096, 256, 64, 64), 0);
    is_full(&core, 4096, 256, 64, 64);
    wants("the greatest wide sizes", hl_open_wide(&core, 1 << 20, 1 << 16, 1024, 4096), 0);
    is_full(&core, 1 << 20, 1 << 16, 1024, 4096);
}

int main(void) {
    names();
    no_core();
    sizes();
    out_of_place();
    named();
    greatest();
    printf("misuse in C: %d wrong\n", wrong);
    return wrong != 0;
}
