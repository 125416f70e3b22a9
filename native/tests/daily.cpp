// An engine's daily calls on a log: what each answers, and what it leaves where it is refused. The region of an address
// is compared with the offsets at each of many random steps.
#include "hl_log.hpp"

#include <algorithm>
#include <cstdio>
#include <map>
#include <mutex>
#include <optional>
#include <stdexcept>
#include <thread>
#include <vector>

using hl::Fault;
using hl::Region;
using hl::Word;

static int wrong;

static void is(const char *name, bool holds) {
    if (!holds) std::printf("%s\n", name);
    wrong += !holds;
}

/// An answer is to be this fault.
template <class T> static void wants(const char *name, const hl::Result<T> &told, Fault fault) {
    if (!told.has_value() && told.error() == fault) return;
    std::printf("%s: %s and not %s\n", name, told.has_value() ? "accepted" : told.error().name(), hl::name(fault));
    wrong++;
}

static hl::Log opened(Word page_size, Word frames, Word slots, Word places) {
    return hl::Log::open(hl::Sizes::checked(page_size, frames, slots, places).value()).value();
}

static void regions() {
    hl::Log log = opened(4, 4, 2, 4);
    hl::Pass pass = log.acquire(0).value(), other = log.acquire(1).value();
    wants("the region of the tail", pass.region(0), Fault::Beyond);
    is("two pages", pass.allocate(4).value() == 0 && pass.allocate(4).value() == 4);
    is("mutable words", pass.region(0).value() == Region::Mutable && pass.region(7).value() == Region::Mutable);
    is("the tail that is told", pass.region(8).error() == hl::Refusal{Fault::Beyond, 8, 0});
    wants("a region above the tail that was seen", other.region(0), Fault::Beyond);
    other.refresh().value();

    // One pass has seen the raise, and the other one not.
    is("a raise", log.raise(6).value() == 6 && pass.look().read_only == 6);
    is("a fuzzy word", pass.region(5).value() == Region::Fuzzy && pass.region(6).value() == Region::Mutable);
    is("which is mutable to another", other.region(5).value() == Region::Mutable && other.store(5, 1));
    is("a settle", log.settle().value() == 1 && pass.refresh() && other.refresh());
    is("a fuzzy word until it is done", log.take().value().ticket == 1 && pass.region(5).value() == Region::Fuzzy);
    is("its done", log.done(1).value().value == 6);
    is("a read-only word", pass.region(5).value() == Region::ReadOnly && other.region(5).value() == Region::ReadOnly);
    is("a mutable word above it", pass.region(6).value() == Region::Mutable);

    { log.flush_take().value().done().value(); }
    is("a shift", log.shift(4).value() == 4 && pass.region(3).value() == Region::ReadOnly);
    is("an evicted word", pass.look().head == 4 && pass.region(3).value() == Region::Evicted);
    is("a read-only one above it", pass.region(4).value() == Region::ReadOnly);
}

/// Two settles whose dones come in the other order, a close's and a job's: the safe read-only offset never falls.
static void dones() {
    hl::Log log = opened(4, 4, 1, 4);
    hl::Pass pass = log.acquire(0).value();
    is("two pages", pass.allocate(4).value() == 0 && pass.allocate(4).value() == 4);
    is("two settles", log.raise(3) && log.settle().value() == 1 && log.raise(8) && log.settle().value() == 2);
    is("a close and a job", log.close().value() == 3 && log.bump(1000).value() == 4 && pass.refresh());
    for (Word ticket = 1; ticket <= 4; ticket++)
        is("a take", log.take().value().ticket == ticket);
    is("a job's done", log.done(4).value().value == 1000 && pass.region(0).value() == Region::Fuzzy);
    is("a close's done", log.done(3) && pass.region(0).value() == Region::Fuzzy);
    is("the later settle's done", log.done(2) && pass.region(7).value() == Region::ReadOnly);
    is("the earlier settle's done", log.done(1) && pass.region(7).value() == Region::ReadOnly);
}

/// The region by the offsets as they are, for one pass in one thread; none above what it sees.
static std::optional<Region> wanted(const hl::View &view, const hl::Offsets &now, Word address) {
    if (address < view.head) return Region::Evicted;
    if (address >= view.tail) return std::nullopt;
    if (address >= view.read_only) return Region::Mutable;
    return address < now.safe_read_only ? Region::ReadOnly : Region::Fuzzy;
}

static void random_regions() {
    hl::Log log = opened(8, 8, 1, 8);
    hl::Pass pass = log.acquire(0).value();
    Word seen[5] = {}, state = 47;
    auto below = [&state](Word bound) {
        state = state * 6364136223846793005 + 1442695040888963407;
        return (state >> 33) % bound;
    };
    for (int made = 0; made < 100000; made++) {
        hl::Offsets now = log.offsets();
        switch (below(9)) {
        case 0: (void)pass.allocate(1 + below(8)); break;
        case 1: (void)log.raise(now.read_only + below(now.tail - now.read_only + 1)); break;
        case 2: (void)log.shift(now.flushed); break;
        case 3: (void)(below(2) ? log.settle() : log.close()); break;
        case 4: (void)pass.look(); break;
        case 5: (void)pass.keep_up(); break;
        case 6: (void)pass.help([](Word) {}); break;
        case 7:
            if (auto page = log.flush_take()) (void)page->done();
            break;
        default: (void)log.clean_take();
        }
        now = log.offsets();
        Word address = now.tail + 1 - below(std::min<Word>(now.tail + 2, 80));
        auto told = pass.region(address);
        auto want = wanted(pass.view(), now, address);
        bool is_wanted = want ? told.has_value() && *told == *want : !told && told.error() == Fault::Beyond;
        if (!is_wanted) {
            std::printf("the region of %llu after %d steps\n", (unsigned long long)address, made);
            wrong++;
            return;
        }
        seen[told ? static_cast<Word>(*told) : 0]++;
    }
    for (Word times : seen)
        is("each region is seen often", times > 1000);
}

static void up_to_date() {
    hl::Log log = opened(4, 2, 2, 4);
    hl::Pass pass = log.acquire(0).value(), other = log.acquire(1).value();
    is("nothing new", pass.keep_up().value() == hl::View{0, 0, 0});
    is("a record of another", other.allocate(4).value() == 0 && pass.keep_up().value().tail == 0);
    is("a raise", log.raise(2) && pass.keep_up().value() == hl::View{2, 0, 4});
    is("an ended epoch", log.bare().value() == 1 && log.bump(7).value() == 2 && pass.keep_up() && pass.keeps_up());
    is("who holds it up", log.holder(0).value().slot == 1 && !log.holder(1));
}

static void records() {
    hl::Log log = opened(8, 2, 1, 4);
    hl::Pass pass = log.acquire(0).value();
    const Word three[] = {11, 12, 13}, more[9] = {};
    is("a record", pass.append(three, 3).value() == 0 && pass.append(three, 3).value() == 3);
    is("one that begins a page", pass.append(three, 3).value() == 8 && pass.view().tail == 11);
    wants("a record of no words", pass.append(three, 0), Fault::Size);
    wants("a record of nowhere", pass.append(nullptr, 3), Fault::Size);
    wants("a record of more than a page", pass.append(more, 9), Fault::Size);
    is("nothing was placed", log.offsets().tail == 11);

    Word words[4] = {1, 1, 1, 1};
    is("a row of words", pass.load_into(3, words, 3) && words[0] == 11 && words[2] == 13 && words[3] == 1);
    is("a row across two pages", pass.load_into(5, words, 4) && words[0] == 13 && words[2] == 0 && words[3] == 11);
    wants("a row beyond the tail", pass.load_into(8, words, 4), Fault::Beyond);
    wants("a row above the tail", pass.load_into(11, words, 1), Fault::Beyond);
    wants("a row so far up", pass.load_into(~Word{0}, words, 2), Fault::Beyond);
    wants("a row of so many words", pass.load_into(5, words, ~std::size_t{0}), Fault::Beyond);
    wants("a row into nowhere", pass.load_into(0, nullptr, 1), Fault::Size);
    is("no words", pass.load_into(~Word{0}, nullptr, 0).has_value());
    is("no place was written", words[0] == 13 && words[3] == 11);

    is("the first page is sealed", log.raise(8) && log.settle() && pass.help([](Word) {}).value() == false);
    is("and flushed", pass.help([](Word) {}).value() && log.flush_take().value().done().value() == 8);
    is("a look at the head", log.shift(8) && pass.load_into(7, words, 2) && pass.look().head == 8);
    wants("an evicted row", pass.load_into(7, words, 2), Fault::Evicted);
    is("a row above the head", pass.load_into(8, words, 3) && words[0] == 11);
    wants("a record that would enter a frame that isn't free", pass.append(more, 8), Fault::Busy);
}

static void leases() {
    hl::Log log = opened(8, 2, 1, 4);
    hl::Pass pass = log.acquire(0).value();
    hl::Lease none;
    is("a piece of no words", none.left() == 0 && !none.take(1));
    hl::Lease lease = pass.lease(5).value();
    is("the piece is placed", log.offsets().tail == 5 && pass.view().tail == 5 && lease.left() == 5);
    is("its records", lease.take(2).value() == 0 && lease.take(2).value() == 2 && lease.left() == 1);
    is("none that has no words or too many",
       !lease.take(0) && !lease.take(2) && !lease.take(~Word{0}) && lease.left() == 1);
    is("the words of a record", pass.store(3, 7) && pass.load(3).value() == 7);
    hl::Lease other = std::move(lease);
    is("a piece that was moved", lease.left() == 0 && !lease.take(1) && other.take(1).value() == 4 && !other.take(1));
    lease = pass.lease(8).value();
    is("a piece that begins a page", lease.take(8).value() == 8);
    wants("a piece of no words", pass.lease(0), Fault::Size);
    wants("a piece of more than a page", pass.lease(9), Fault::Size);
    wants("a piece without a frame", pass.lease(1), Fault::Busy);
}

static void helps() {
    hl::Log log = opened(4, 2, 2, 2);
    hl::Pass pass = log.acquire(0).value(), other = log.acquire(1).value();
    Word tags = 0;
    auto run = [&tags](Word tag) { tags += tag; };
    is("no action", !pass.help(run).value());
    is("a job and a settle", log.bump(7).value() == 1 && pass.allocate(4) && log.raise(4) && log.settle().value() == 2);
    is("one that isn't ready", !pass.help(run).value() && pass.view().read_only == 4 && tags == 0);
    is("a job", other.refresh() && pass.help(run).value() && tags == 7);
    is("a settle", pass.help(run).value() && tags == 7 && log.offsets().safe_read_only == 4);
    is("all are done", !pass.help(run).value() && log.snapshot().taken == 0 && log.snapshot().pending == 0);

    is("a job that throws", log.bump(8).value() == 3 && pass.refresh() && other.refresh());
    bool thrown = false;
    try {
        (void)pass.help([](Word) { throw std::runtime_error("job"); });
    } catch (const std::runtime_error &) {
        thrown = true;
    }
    is("it is done", thrown && log.snapshot().taken == 0 && log.snapshot().pending == 0 && pass.refresh());
}

static void rests() {
    hl::Log log = opened(4, 2, 2, 4);
    hl::Pass pass = log.acquire(0).value();
    is("a record", pass.allocate(4) && pass.store(3, 9));
    auto entered = pass.rest([&] {
        is("nobody is protected", log.snapshot().protected_slots == 0);
        is("a raise, and a settle that is done", log.raise(4) && log.settle() && log.done(log.take().value().ticket));
    });
    is("what it enters",
       entered.value().epoch == 2 && entered->view == hl::View{4, 0, 4} && pass.view() == entered->view);
    is("its slot", pass.slot() == 0 && log.snapshot().protected_slots == 1 && pass.load(3).value() == 9);

    {
        std::optional<hl::Pass> next;
        wants("a slot that another has", pass.rest([&] { next = log.acquire(0).value(); }), Fault::Occupied);
        bool ran = false;
        wants("a rest without a slot", pass.rest([&] { ran = true; }), Fault::NoCore);
        is("whose work isn't run", !ran);
        wants("a load without a slot", pass.load(3), Fault::NoCore);
        wants("a region without a slot", pass.region(3), Fault::NoCore);
        wants("a row without a slot", pass.load_into(3, &entered->epoch, 1), Fault::NoCore);
        wants("news without a slot", pass.keep_up(), Fault::NoCore);
        wants("a record without a slot", pass.append(&entered->epoch, 1), Fault::NoCore);
        wants("a piece without a slot", pass.lease(1), Fault::NoCore);
        wants("help without a slot", pass.help([](Word) {}), Fault::NoCore);
        pass = std::move(*next);
        is("the next holder stays", log.snapshot().protected_slots == 1 && pass.refresh());
    }
    try {
        (void)pass.rest([] { throw std::runtime_error("work"); });
    } catch (const std::runtime_error &) {
        wants("a pass whose work threw", pass.refresh(), Fault::NoCore);
    }
    is("its slot is free", log.snapshot().protected_slots == 0 && log.acquire(0));
    hl::Pass moved = std::move(pass);
    wants("a rest of a pass that was moved", pass.rest([] {}), Fault::NoCore);
    wants("help by a pass that was moved", pass.help([](Word) {}), Fault::NoCore);
}

static void seals() {
    hl::Log log = opened(4, 4, 2, 1);
    hl::Pass pass = log.acquire(0).value(), other = log.acquire(1).value();
    hl::Sealed sealed = pass.seal().value();
    is("a seal of nothing", sealed.address == 0 && !sealed.ticket);
    is("a record", pass.allocate(3).value() == 0);
    sealed = pass.seal().value();
    is("a seal", sealed.address == 4 && sealed.ticket == Word{1} && pass.view() == hl::View{4, 0, 4});
    is("another sees no word of it", other.view() == hl::View{0, 0, 0} && other.keep_up().value().tail == 4);
    is("one more word", other.allocate(1).value() == 4);
    wants("a seal without a place", other.seal(), Fault::DrainFull);
    is("it filled the page", log.offsets().tail == 8 && other.view() == hl::View{8, 0, 8});
    is("the settle is done", pass.refresh() && pass.help([](Word) {}).value() && log.offsets().safe_read_only == 4);
    is("a seal that goes on", other.seal().value().ticket == Word{2});
}

/// Pages that were written, in their order.
struct Device {
    std::vector<Word> words;
    bool write(Word page, const Word *from, std::size_t count) {
        if (page * count != words.size()) return false;
        words.insert(words.end(), from, from + count);
        return true;
    }
};

static void flushes() {
    hl::Log log = opened(4, 4, 2, 2);
    hl::Pass pass = log.acquire(0).value();
    Device device;
    Word jobs = 0, asked = 0;
    auto write = [&](Word page, const Word *words, std::size_t count) { return device.write(page, words, count); };
    auto fails = [&](Word, const Word *, std::size_t) { return ++asked, false; };
    auto run = [&jobs](Word tag) { jobs += tag; };
    is("a flush of nothing", pass.flush(1, write, run).value() == 0 && device.words.empty());
    const Word three[] = {11, 12, 13};
    is("two records and a job", pass.append(three, 3) && pass.append(three, 3).value() == 4 && log.bump(7));
    wants("a device that fails", pass.flush(5, fails, run), Fault::Device);
    is("it was asked as often as it may", asked == 5 + 1 && jobs == 7 && log.offsets().flushed == 0);
    is("a flush", pass.flush(5, write, run).value() == 8);
    is("the pages", device.words == std::vector<Word>{11, 12, 13, 0, 11, 12, 13, 0});
    is("no more is asked", pass.flush(1, fails, run).value() == 8 && asked == 6);

    {
        hl::Pass slow = log.acquire(1).value();
        is("a third record", pass.append(three, 1).value() == 8);
        auto told = pass.flush(3, write, run);
        is("a slot that doesn't refresh", told.error() == Fault::NotReady && told.error().first == 3);
        is("a settle more", log.settle().value() == 4 && pass.allocate(1).value() == 12);
        wants("no place for a settle", pass.flush(3, write, run), Fault::DrainFull);
    }
    is("it has left", pass.flush(3, write, run).value() == 16 && device.words.size() == 16 && device.words[8] == 11);

    is("frames are free", log.shift(16) && log.close() && !pass.help(run).value() && pass.help(run).value() &&
                              log.clean_take() && log.clean_take());
    is("a sealed page",
       pass.allocate(1).value() == 16 && pass.seal() && !pass.help(run).value() && pass.help(run).value());
    {
        hl::Flush page = log.flush_take().value();
        wants("a flush meanwhile", pass.flush(3, write, run), Fault::NoneSealed);
    }
    is("it came back", pass.flush(3, write, run).value() == 20 && device.words.size() == 20);
    hl::Pass moved = std::move(pass);
    wants("a flush by a pass that was moved", pass.flush(3, write, run), Fault::NoCore);
    wants("a seal by it", pass.seal(), Fault::NoCore);
    try {
        auto throws = [](Word, const Word *, std::size_t) -> bool { throw std::runtime_error("device"); };
        is("one more", moved.append(three, 3).has_value());
        (void)moved.flush(3, throws, run);
    } catch (const std::runtime_error &) {
        is("its page went back", moved.flush(3, write, run).value() == 24 && device.words.size() == 24);
    }
}

/// Two threads append and flush at the same time: each word is written once, where it was placed.
static void two_flush() {
    const Word records = 200;
    hl::Log log = opened(4, 256, 2, 4);
    std::mutex mutex;
    std::map<Word, std::vector<Word>> pages;
    auto ride = [&](Word slot) {
        hl::Pass pass = log.acquire(slot).value();
        for (Word i = 0; i < records; i++) {
            const Word record[] = {slot + 1, i};
            pass.append(record, 2).value();
            pass.keep_up().value();
            if (i % 50 != 49) continue;
            auto write = [&](Word page, const Word *words, std::size_t count) {
                std::lock_guard<std::mutex> lock(mutex);
                return pages.emplace(page, std::vector<Word>(words, words + count)).second;
            };
            while (!pass.flush(1000, write, [](Word) {}))
                ;
        }
    };
    std::thread first(ride, 0), second(ride, 1);
    first.join();
    second.join();
    Word next[2] = {}, flushed = log.offsets().flushed;
    is("all is flushed", flushed == log.offsets().tail && pages.size() == flushed / 4);
    for (const auto &page : pages)
        for (std::size_t at = 0; at < 4 && page.second[at] != 0; at += 2)
            next[page.second[at] - 1] += page.second[at + 1] == next[page.second[at] - 1];
    is("each record once, in order", next[0] == records && next[1] == records);
}

int main() {
    regions();
    dones();
    random_regions();
    up_to_date();
    records();
    leases();
    helps();
    rests();
    seals();
    flushes();
    two_flush();
    std::printf("daily calls in C++: %d wrong\n", wrong);
    return wrong != 0;
}
