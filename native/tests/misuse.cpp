// The error of each misuse by hl.hpp and hl_log.hpp, and what a program that was written for older headers still finds.
#include "hl_log.hpp"

#include <cstdio>
#include <cstring>
#include <optional>
#include <type_traits>
#include <utility>

static int wrong;

// Whether a slot of such a log or core can be acquired: not of one that goes away at once.
template <class T, class = void> struct gives_slots : std::false_type {};
template <class T>
struct gives_slots<T, std::void_t<decltype(std::declval<T>().acquire(hl::Word{0}))>> : std::true_type {};
static_assert(gives_slots<hl::Log &>::value && gives_slots<hl::Log>::value, "a pass may outlive its log");
static_assert(gives_slots<hl::Core &>::value && !gives_slots<hl::Core>::value, "a slot of a core that goes away");

// Whether the value of an answer that goes away at once is given without an exception.
template <class... T> constexpr bool gives_quietly = (noexcept(*std::declval<hl::Result<T>>()) && ...);
static_assert(gives_quietly<hl::Word, hl::Sizes, hl::Offsets, hl::Snapshot, hl::Lag>, "a plain value of an answer");
static_assert(gives_quietly<hl::Core, hl::Slot, hl::Log, hl::Pass, hl::Lease, hl::Flush, hl::Clean>,
              "a value that only moves");

/// An answer is to be this fault.
template <class T> static void wants(const char *name, const hl::Result<T> &told, hl::Fault fault) {
    if (!told.has_value() && told.error() == fault) return;
    std::printf("%s: %s and not %s\n", name, told.has_value() ? "accepted" : told.error().name(), hl::name(fault));
    wrong++;
}

static void is(const char *name, bool holds) {
    if (!holds) std::printf("%s\n", name);
    wrong += !holds;
}

// Each fault has the same name in C.
static void names() {
    for (hl::Word number = 1; number < 256; number++)
        is("a fault's name in C", std::strcmp(hl::name(static_cast<hl::Fault>(number)), hl_fault_name(number)) == 0);
}

static hl::Core core() { return hl::Core::open(hl::Sizes::checked(4, 2, 2, 1).value()).value(); }

static void sizes() {
    const hl::Word out_of_range[][4] = {{0, 2, 1, 1},
                                        {2, 2, 1, 1},
                                        {6, 2, 1, 1},
                                        {8192, 2, 1, 1},
                                        {4, 1, 1, 1},
                                        {4, 257, 1, 1},
                                        {4, 2, 0, 1},
                                        {4, 2, 65, 1},
                                        {4, 2, 1, 0},
                                        {4, 2, 1, 65},
                                        {~hl::Word{0}, ~hl::Word{0}, 1, 1}};
    for (auto &row : out_of_range)
        wants("sizes out of range", hl::Sizes::checked(row[0], row[1], row[2], row[3]), hl::Fault::OutOfRange);
    is("the least sizes", hl::Sizes::checked(4, 2, 1, 1).has_value());
    is("the greatest sizes", hl::Sizes::checked(4096, 256, 64, 64).has_value());
    static const hl::Word out_of_wide_range[][4] = {
        {1 << 21, 2, 1, 1}, {4, 65537, 1, 1}, {4, 2, 1025, 1}, {4, 2, 1, 4097}};
    for (auto &row : out_of_wide_range)
        wants("wide sizes out of range", hl::Sizes::wide(row[0], row[1], row[2], row[3]), hl::Fault::OutOfRange);
    is("the greatest wide sizes", hl::Sizes::wide(1 << 20, 1 << 16, 1024, 4096).has_value());
    hl::RawSizes raw{};
    raw.page_size = 8;
    raw.frames = 65536;
    raw.slots = 1;
    raw.drain_places = 2;
    hl::Sizes named = hl::Sizes::of(raw).value();
    is("sizes by names",
       named.page_size() == 8 && named.frames() == 65536 && named.slots() == 1 && named.drain_places() == 2);
    raw.slots = 1025;
    wants("sizes by names out of range", hl::Sizes::of(raw), hl::Fault::OutOfRange);
}

static void no_core() {
    hl::Core first = core();
    hl::Slot slot = first.acquire(0).value();
    hl::Core second = std::move(first);
    wants("a step of a core that was moved", first.take(), hl::Fault::NoCore);
    wants("offsets of a core that was moved", first.offsets(), hl::Fault::NoCore);
    wants("a lag of a core that was moved", first.lag(1, 1), hl::Fault::NoCore);
    is("a slot of a core that was moved", slot.refresh().has_value());
    hl::Slot other = std::move(slot);
    wants("a slot that was moved", slot.refresh(), hl::Fault::NoCore);
    is("a release", other.release().has_value());
    wants("a second release", other.release(), hl::Fault::NoCore);
    is("nobody is protected", second.snapshot()->protected_slots == 0);
}

static void slots() {
    hl::Core one = core();
    {
        hl::Slot slot = one.acquire(0).value();
        wants("a slot twice", one.acquire(0), hl::Fault::Occupied);
        wants("a slot that isn't there", one.acquire(2), hl::Fault::NoSlot);
        wants("a slot that isn't protected", one.refresh(1), hl::Fault::NotProtected);
        wants("a record of no word", slot.allocate(0), hl::Fault::Size);
        wants("a record of more than a page", slot.allocate(5), hl::Fault::Size);
        wants("a write at the tail", slot.may_write(0), hl::Fault::Beyond);
        is("an action", one.bump(1).has_value());
        wants("a take before its slots moved on", one.take(), hl::Fault::NotReady);
        wants("a second action in one place", one.bump(1), hl::Fault::DrainFull);
    }
    is("a slot is released where it goes out of scope", one.acquire(0).has_value());
    {
        hl::Slot first = one.acquire(0).value();
        hl::Slot second = one.acquire(1).value();
        first = std::move(second);
        is("a slot that another takes the place of is released", one.snapshot()->protected_slots == 1);
        is("the slot that took its place", first.number() == 1 && first.refresh().has_value());
        wants("the place that it came from", second.refresh(), hl::Fault::NoCore);
    }
    {
        auto former = std::make_optional(one.acquire(0).value());
        is("a slot that is released by its number", one.release(0).has_value());
        hl::Slot next = one.acquire(0).value();
        wants("its former holder", former->refresh(), hl::Fault::NotProtected);
        wants("a release by its former holder", former->release(), hl::Fault::NotProtected);
        former = one.acquire(1).value();
        is("one more that is released by its number", one.release(1).has_value());
        former.reset();
        is("the next holder stays", next.refresh().has_value() && one.snapshot()->protected_slots == 1);
    }
    is("one that is kept isn't", one.acquire(1).value().keep() == 1 && one.snapshot()->protected_slots == 1);
}

static void out_of_place() {
    hl::Core one = core();
    wants("no action", one.take(), hl::Fault::Empty);
    wants("a done of no action", one.done(1), hl::Fault::NotTaken);
    wants("a raise to where it is", one.raise(0), hl::Fault::NotAbove);
    wants("a raise above the tail", one.raise(1), hl::Fault::AboveTail);
    wants("a shift into a page", one.shift(1), hl::Fault::NotPage);
    wants("a shift above what is flushed", one.shift(4), hl::Fault::AboveFlushed);
    wants("an end of no flush", one.flush_done(0, true), hl::Fault::NotInFlight);
    wants("an end of no cleaning", one.clean_done(0), hl::Fault::NotCleaning);
    wants("a frame that isn't there", one.frame(2), hl::Fault::OutOfRange);
    wants("a lag with no mutable page", one.lag(0, 1), hl::Fault::OutOfRange);
    wants("a lag with more mutable pages than resident ones", one.lag(2, 1), hl::Fault::OutOfRange);
    wants("a lag with all frames resident", one.lag(1, 2), hl::Fault::OutOfRange);
    wants("a place where nothing waits", one.pending(0), hl::Fault::OutOfRange);
}

static void a_log() {
    hl::Log log = hl::Log::open(hl::Sizes::checked(4, 2, 1, 1).value()).value();
    {
        hl::Pass pass = log.acquire(0).value();
        wants("a slot of a log twice", log.acquire(0), hl::Fault::Occupied);
        wants("a slot that a log doesn't have", log.acquire(1), hl::Fault::NoSlot);
        wants("a store at the tail", pass.store(0, 1), hl::Fault::Beyond);
        wants("a load at the tail", pass.load(0), hl::Fault::Beyond);
        wants("a page where none is sealed", log.flush_take(), hl::Fault::NoneSealed);
        wants("a page where none is closed", log.clean_take(), hl::Fault::NoneClosed);
        hl::Pass other = std::move(pass);
        wants("a pass that was moved", pass.refresh(), hl::Fault::NoCore);
        wants("a store by a pass that was moved", pass.store(0, 1), hl::Fault::NoCore);
    }
    is("a pass releases its slot", log.acquire(0).has_value());
    {
        hl::Log two = hl::Log::open(hl::Sizes::checked(4, 2, 2, 1).value()).value();
        hl::Pass first = two.acquire(0).value();
        hl::Pass second = two.acquire(1).value();
        first = std::move(second);
        is("a pass that another takes the place of is released", two.snapshot().protected_slots == 1);
        is("the pass that took its place", first.slot() == 1 && first.refresh().has_value());
        wants("the place that a pass came from", second.refresh(), hl::Fault::NoCore);
    }
    hl::Log other = std::move(log);
    wants("a step of a log that was moved", log.take(), hl::Fault::NoCore);
    wants("a lag of a log that was moved", log.lag(1, 1), hl::Fault::NoCore);
    wants("an acquire of a log that was moved", log.acquire(0), hl::Fault::NoCore);
    is("the log that it was moved to", other.snapshot().epoch == 1);
    is("quantities of a log that was moved", log.snapshot().epoch == 0 && log.offsets().tail == 0);
    is("no answer throws", noexcept(log.take()) && noexcept(log.acquire(0)) && noexcept(other.flush_take()));

    // A pass and a page that outlive their log.
    auto last = std::make_optional(hl::Log::open(hl::Sizes::checked(4, 2, 1, 1).value()).value());
    hl::Pass pass = last->acquire(0).value();
    is("a record", pass.allocate(4).value() == 0 && pass.store(1, 7).has_value());
    is("a raise and a settle", last->raise(4).value() == 4 && last->settle().value() == 1);
    is("a refresh and a done", pass.refresh().has_value() && last->done(last->take()->ticket).has_value());
    hl::Flush page = last->flush_take().value();
    last.reset();
    hl::Word words[4] = {};
    is("a load by a pass without its log", pass.load(1).value() == 7 && pass.refresh().has_value());
    is("a copy of a page without its log", page.copy(words, 4).has_value() && words[1] == 7);
    is("a page that is done without its log", page.done().value() == 4);
    wants("a page that is done twice", page.done(), hl::Fault::NoCore);
}

// What an answer leads to.
static void chained() {
    hl::Core one = core();
    auto number = one.acquire(0).transform([](hl::Slot slot) { return slot.keep(); });
    is("a function of a value", number.has_value() && *number == 0);
    auto address = one.acquire(1).and_then([](hl::Slot slot) { return slot.allocate(4); });
    is("an answer behind another", address.has_value() && *address == 0);
    wants("a function of no value", one.acquire(0).transform([](hl::Slot slot) { return slot.keep(); }),
          hl::Fault::Occupied);
    wants("no answer behind a refusal", one.acquire(0).and_then([](hl::Slot slot) { return slot.allocate(4); }),
          hl::Fault::Occupied);
    hl::Result<hl::Word> busy = one.acquire(1)->allocate(5);
    is("refusals", busy.error() == hl::Refusal{hl::Fault::Size, 0, 0} && busy.error() != hl::Refusal{hl::Fault::Size, 1, 0});
    is("views", hl::View{1, 2, 3} == hl::View{1, 2, 3} && hl::View{1, 2, 3} != hl::View{1, 2, 4});
}

static bool same(const hl::Offsets &x, const hl::Offsets &y) {
    return x.closed == y.closed && x.head == y.head && x.flushed == y.flushed && x.safe_read_only == y.safe_read_only &&
           x.read_only == y.read_only && x.tail == y.tail;
}

// The old name of offsets() answers as it does.
#pragma GCC diagnostic push
#pragma GCC diagnostic ignored "-Wdeprecated-declarations"
static void old_name() {
    hl::Core one = core();
    is("a record and a raise", one.acquire(0)->allocate(3).value() == 0 && one.raise(2).value() == 2);
    is("offsets of a core by the old name", same(one.six().value(), one.offsets().value()) && one.six()->tail == 3);
    hl::Core other = std::move(one);
    wants("the same of a core that was moved", one.six(), hl::Fault::NoCore);
    hl::Log log = hl::Log::open(hl::Sizes::checked(4, 2, 1, 1).value()).value();
    hl::Pass pass = log.acquire(0).value();
    is("a record and a raise of a log", pass.allocate(3).value() == 0 && log.raise(2).value() == 2);
    is("offsets of a log by the old name", same(log.six(), log.offsets()) && log.six().tail == 3);
}
#pragma GCC diagnostic pop

static void thrown() {
    const char *what = "";
    try {
        (void)core().take().value();
    } catch (const std::exception &thrown) {
        what = thrown.what();
    }
    is("value() of a refused answer throws the fault's name", std::strcmp(what, "Empty") == 0);
}

int main() {
    names();
    sizes();
    no_core();
    slots();
    out_of_place();
    a_log();
    old_name();
    thrown();
    chained();
    std::printf("misuse in C++: %d wrong\n", wrong);
    return wrong != 0;
}
