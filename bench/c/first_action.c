/* examples/first_action.script by the door: an action waits until its thread has refreshed. It writes the same text. */
#include "hl.h"

#include <inttypes.h>
#include <stdio.h>

static void print_entered(hl_outcome entered) {
    printf("epoch %" PRIu64 " view %" PRIu64 " %" PRIu64 " %" PRIu64 "\n", entered.a, entered.b, entered.c, entered.d);
}

static void print_all(hl_quantities all) {
    printf("status epoch %" PRIu64 " safe %" PRIu64 " pending %" PRIu64 " taken %" PRIu64, all.epoch, all.safe, all.pending,
           all.taken);
    printf(" closed %" PRIu64 " head %" PRIu64 " flushed %" PRIu64, all.six.closed, all.six.head, all.six.flushed);
    printf(" safe_read_only %" PRIu64 " read_only %" PRIu64 " tail %" PRIu64 "\n", all.six.safe_read_only,
           all.six.read_only, all.six.tail);
}

int main(void) {
    hl_core core = {0};
    if (hl_open(&core, 4, 2, 2, 2) != 0) {
        return 1;
    }
    puts("opened");
    print_entered(hl_acquire(&core, 0));
    printf("ticket %" PRIu64 "\n", hl_bump(&core, 7).a);
    hl_outcome early = hl_take(&core);
    printf("fault %" PRIu64 " NotReady front %" PRIu64 " safe %" PRIu64 "\n", early.number, early.a, early.b);
    print_entered(hl_refresh(&core, 0));
    hl_outcome taken = hl_take(&core);
    printf("taken %" PRIu64 "\n", taken.a);
    /* The job is this program's: it answers its tag and its ticket, and a done tells the tag again. */
    printf("answer %" PRIu64 "\n", hl_done(&core, taken.a).a + taken.a);
    printf("fault %" PRIu64 " Empty\n", hl_take(&core).number);
    print_all(hl_snapshot(&core));
    return hl_free(&core) == 0 ? 0 : 1;
}
