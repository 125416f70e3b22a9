/* Times the way of an action through a core by its C door, with as many actions pending, and then taken, as there are
 * places: nanoseconds a bump, a take, and a done from the oldest action to the newest and the other way round. */
#include "hl.h"
#include <stdio.h>
#include <stdlib.h>
#include <time.h>

enum { TURNS = 400000 };

static double now(void) {
    struct timespec t;
    clock_gettime(CLOCK_MONOTONIC, &t);
    return t.tv_sec * 1e9 + t.tv_nsec;
}

static void ok(uint64_t number) {
    if (number != 0) {
        fprintf(stderr, "a call answered %llu\n", (unsigned long long)number);
        exit(1);
    }
}

/* Adds to the times of bumps, takes and dones; epoch is the last ticket before this round. */
static uint64_t round_of(hl_core *core, uint64_t places, uint64_t epoch, int newest_first, double took[3]) {
    double from = now();
    for (uint64_t i = 0; i < places; i++)
        ok(hl_bump(core, 7).number);
    took[0] += now() - from;
    from = now();
    for (uint64_t i = 0; i < places; i++)
        ok(hl_take(core).number);
    took[1] += now() - from;
    from = now();
    for (uint64_t i = 0; i < places; i++)
        ok(hl_done(core, newest_first ? epoch + places - i : epoch + 1 + i).number);
    took[2] += now() - from;
    return epoch + places;
}

int main(void) {
    static const uint64_t rows[] = {64, 1024, 4096};
    printf("%8s%10s%10s%16s%16s\n", "places", "bump", "take", "done, oldest", "done, newest");
    for (unsigned i = 0; i < sizeof rows / sizeof rows[0]; i++) {
        uint64_t places = rows[i], epoch = 0;
        double oldest[3] = {0}, newest[3] = {0};
        hl_core core = {0};
        ok(hl_open_wide(&core, 4, 2, 1, places));
        for (uint64_t made = 0; made < TURNS; made += places) {
            epoch = round_of(&core, places, epoch, 0, oldest);
            epoch = round_of(&core, places, epoch, 1, newest);
        }
        double calls = (TURNS + places - 1) / places * places;
        printf("%8llu%10.1f%10.1f%16.1f%16.1f\n", (unsigned long long)places, oldest[0] / calls, oldest[1] / calls,
               oldest[2] / calls, newest[2] / calls);
        ok(hl_free(&core));
    }
    return 0;
}
