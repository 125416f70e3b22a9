// What a core tells at each moment of one page's way, and the lags of docs/FORMATS.md, by the calls that throw a
// refusal.
#define HL_EXCEPTIONS
#include "hl.hpp"

#include <algorithm>
#include <cstdio>
#include <initializer_list>

static int wrong;

static void is(const char *name, bool holds) {
    if (!holds) std::printf("%s\n", name);
    wrong += !holds;
}

static bool is_frame(hl::Core &core, hl::FrameState state) { return core.frame(0).value().state == state; }

static bool is_pending(hl::Core &core, hl::Word place, hl::Kind kind, hl::Word value) {
    hl::Pending pending = core.pending(place).value();
    return pending.kind == kind && pending.value == value;
}

static bool is_done(hl::Core &core, hl::Kind kind, hl::Word value) {
    hl::Done done = core.done(core.take().value().ticket).value();
    return done.kind == kind && done.value == value;
}

static void the_way_of_a_page() {
    hl::Core core(hl::Sizes(4, 2, 2, 4));
    hl::Slot slot = core.acquire(0).value();
    is("a record", slot.allocate(4).value() == 0 && is_frame(core, hl::FrameState::Open));
    is("the other frame", !core.frame(1).value().page && core.frame(0).value().page == hl::Word{0});
    is("a raise", core.raise(4).value() == 4);
    is("tickets", core.settle().value() == 1 && core.bump(7).value() == 2 && core.bare().value() == 3);
    is("what is pending", is_pending(core, 0, hl::Kind::Settles, 4) && is_pending(core, 1, hl::Kind::Job, 7));
    is("a refresh", slot.refresh().value().epoch == 4 && slot.entered().view.read_only == 4);
    is("a settle", is_done(core, hl::Kind::Settles, 4) && is_frame(core, hl::FrameState::Sealed));
    is("a job", is_done(core, hl::Kind::Job, 7));
    is("a flush that failed", core.flush_take().value() == 0 && core.flush_done(0, false).value() == 0);
    is("a flush", core.flush_take().value() == 0 && core.flush_done(0, true).value() == 4);
    is("a shift", is_frame(core, hl::FrameState::Flushed) && core.shift(4).value() == 4 && core.close().value() == 4);
    is("a look", slot.look(4, 4).value().head == 4 && core.view(0).value()->head == 4 && !core.view(1).value());
    slot.refresh().value();
    is("a close", is_done(core, hl::Kind::Closes, 4) && is_frame(core, hl::FrameState::Closed));
    is("a cleaning", core.clean_take().value() == 0 && core.clean_done(0).value() == 0);
    hl::Snapshot all = core.snapshot().value();
    is("quantities", all.epoch == 5 && all.safe == 4 && all.protected_slots == 1 && all.pending == 0 && all.taken == 0);
    is("frames", all.frames == std::array<hl::Word, 5>{0, 0, 0, 0, 2});
    is("offsets", all.offsets.closed == 4 && core.offsets().value().tail == 4);
}

static bool is_lag(hl::Core &core, std::initializer_list<hl::LagStep> wanted) {
    hl::Lag lag = core.lag(1, 2).value();
    return std::equal(lag.begin(), lag.end(), wanted.begin(), wanted.end(), [](hl::LagStep told, hl::LagStep it) {
        return told.kind == it.kind && told.address == it.address;
    });
}

static void the_steps_of_a_lag() {
    hl::Core core(hl::Sizes(4, 8, 1, 4));
    hl::Slot slot = core.acquire(0).value();
    slot.allocate(4).value();
    is("a lag of one page", is_lag(core, {}));
    slot.allocate(4).value();
    core.raise(8).value();
    core.settle().value();
    slot.refresh().value();
    is("two pages are settled", is_done(core, hl::Kind::Settles, 8));
    for (hl::Word page = 0; page < 2; page++)
        core.flush_done(core.flush_take().value(), true).value();
    for (hl::Word words : {4, 4, 1})
        slot.allocate(words).value();
    is("a lag of all four steps",
       is_lag(core,
              {{hl::LagKind::Raise, 16}, {hl::LagKind::Settle, 0}, {hl::LagKind::Shift, 8}, {hl::LagKind::Close, 0}}));
    is("a raise and a shift", core.raise(16).value() == 16 && core.shift(8).value() == 8);
    is("a lag of what is left", is_lag(core, {{hl::LagKind::Settle, 0}, {hl::LagKind::Close, 0}}));
}

template <class Make> static bool throws(Make make) {
    try {
        make();
    } catch (const std::exception &) {
        return true;
    }
    return false;
}

int main() {
    the_way_of_a_page();
    the_steps_of_a_lag();
    is("sizes out of range throw", throws([] { hl::Sizes(3, 2, 2, 4); }));
    is("a value of a refusal throws", throws([] { (void)hl::Core(hl::Sizes(4, 2, 2, 4)).take().value(); }));
    std::printf("a core in C++: %d wrong\n", wrong);
    return wrong != 0;
}
