// Counters that outlive their memory: four threads add to counters that lie in a log, and one flushes its pages to a
// device and frees their frames behind them. An add is made in place where its record is mutable, waits where that is
// fuzzy, and else copies the sum to the tail. At the end each counter is the sum of what the threads added.
#include <hl_log.hpp>

#include <array>
#include <atomic>
#include <cstdio>
#include <cstdlib>
#include <mutex>
#include <thread>
#include <vector>

using hl::Word;

static const Word PAGE_SIZE = 64, FRAMES = 8, THREADS = 4, COUNTERS = 1000, ADDS = 20000;
// A record is its counter's number and value; a piece has eight.
static const Word RECORD = 2, PIECE = 16;
// Where a counter that nobody added to has its record.
static const Word NOWHERE = ~Word{0};

/// A device in memory: the pages that were flushed.
class Device {
  public:
    void write(Word page, const std::array<Word, PAGE_SIZE> &words) {
        std::lock_guard<std::mutex> lock(mutex_);
        if (page >= pages_.size()) pages_.resize(page + 1);
        pages_[page] = words;
    }
    /// The word at an address of a page that was flushed.
    Word read(Word address) {
        std::lock_guard<std::mutex> lock(mutex_);
        return pages_.at(address / PAGE_SIZE).at(address % PAGE_SIZE);
    }

  private:
    std::mutex mutex_;
    std::vector<std::array<Word, PAGE_SIZE>> pages_;
};

/// The counters: the log, its device, and where each counter's newest record is.
struct Counters {
    hl::Log log = hl::Log::open(hl::Sizes::checked(PAGE_SIZE, FRAMES, THREADS, 4).value()).value();
    Device device;
    std::array<std::atomic<Word>, COUNTERS> index;
};

/// A thread's seat: its pass, and a piece that has room for its next records.
class Seat {
  public:
    Seat(Counters &counters, Word slot) : counters_(counters), pass_(counters.log.acquire(slot).value()) {}

    void add(Word counter, Word more) {
        while (!attempt(counter, more))
            // Other threads have to move on, or a frame has to come free.
            if (!pass_.help([](Word) {}).value()) std::this_thread::yield();
    }

    /// The value of a counter to which nobody adds any more.
    Word value(Word counter) {
        pass_.refresh().value();
        Word at = counters_.index[counter];
        if (at == NOWHERE) return 0;
        return pass_.region(at).value() == hl::Region::Evicted ? on_device(at) : in_memory(counter, at);
    }

  private:
    /// One attempt, which begins with the log as it is and looks the counter up anew. False: it changed nothing.
    bool attempt(Word counter, Word more) {
        pass_.keep_up().value();
        Word at = counters_.index[counter];
        if (at == NOWHERE) return publish(counter, at, more);
        auto region = pass_.region(at);
        // The record is above the tail that the pass saw.
        if (!region) return false;
        switch (*region) {
        case hl::Region::Mutable: return pass_.fetch_add(at + 1, more).has_value();
        // A thread that hasn't moved on may still add there.
        case hl::Region::Fuzzy: return false;
        case hl::Region::ReadOnly: return publish(counter, at, in_memory(counter, at) + more);
        default: return publish(counter, at, on_device(at) + more);
        }
    }

    Word in_memory(Word counter, Word at) {
        std::array<Word, RECORD> record;
        pass_.load_into(at, record.data(), record.size()).value();
        if (record[0] != counter) std::abort();
        return record[1];
    }

    /// A value on the device. The slot holds nothing back while the thread waits for it: what was evicted stays as it is,
    /// and the index tells whether it is still the newest.
    Word on_device(Word at) {
        Word value = 0;
        pass_.rest([&] { value = counters_.device.read(at + 1); }).value();
        return value;
    }

    /// Places a record, and makes it the newest of its counter if that one is still the newest. Nobody finds it before.
    bool publish(Word counter, Word newest, Word value) {
        auto at = lease_.take(RECORD);
        if (!at) {
            auto lease = pass_.lease(PIECE);
            if (!lease) return false;
            lease_ = *std::move(lease);
            at = lease_.take(RECORD);
        }
        if (!pass_.store(*at, counter) || !pass_.store(*at + 1, value)) {
            // The read-only offset has passed the piece: what is left of it is let go.
            lease_ = {};
            return false;
        }
        return counters_.index[counter].compare_exchange_strong(newest, *at);
    }

    Counters &counters_;
    hl::Pass pass_;
    hl::Lease lease_;
};

/// One turn of the thread that flushes: the offsets follow the tail, sealed pages are written, and closed ones freed.
static void serve(hl::Log &log, Device &device) {
    while (auto action = log.take())
        log.done(action->ticket).value();
    hl::Snapshot now = log.snapshot();
    if (now.pending == 0 && now.taken == 0) {
        // About two pages are mutable, and five in memory.
        auto lag = log.lag(2, 5).value();
        for (const hl::LagStep &step : lag)
            switch (step.kind) {
            case hl::LagKind::Raise: log.raise(step.address).value(); break;
            case hl::LagKind::Settle: log.settle().value(); break;
            case hl::LagKind::Shift: log.shift(step.address).value(); break;
            case hl::LagKind::Close: log.close().value(); break;
            }
    }
    while (auto page = log.flush_take()) {
        std::array<Word, PAGE_SIZE> words;
        page->copy(words.data(), words.size()).value();
        device.write(page->page(), words);
        page->done().value();
    }
    while (auto page = log.clean_take())
        page->sweep().value();
}

/// Adds to many counters, and sums up in a row of the thread's own.
static void add_all(Counters &counters, Word slot, std::vector<Word> &sums) {
    Seat seat(counters, slot);
    for (Word i = 0; i < ADDS; i++) {
        // Few counters get half of the adds.
        Word counter = (i * (slot + 7) + i / 9) % (i % 2 ? 10 : COUNTERS);
        seat.add(counter, i);
        sums[counter] += i;
    }
}

int main() {
    Counters counters;
    for (auto &at : counters.index)
        at = NOWHERE;
    std::atomic<bool> ended{false};
    std::thread flusher([&] {
        while (!ended) {
            serve(counters.log, counters.device);
            std::this_thread::yield();
        }
    });
    std::vector<std::vector<Word>> sums(THREADS, std::vector<Word>(COUNTERS));
    std::vector<std::thread> threads;
    for (Word slot = 0; slot < THREADS; slot++)
        threads.emplace_back([&, slot] { add_all(counters, slot, sums[slot]); });
    for (std::thread &thread : threads)
        thread.join();
    ended = true;
    flusher.join();

    Seat seat(counters, 0);
    Word wrong = 0;
    for (Word counter = 0; counter < COUNTERS; counter++) {
        Word sum = 0;
        for (const auto &row : sums)
            sum += row[counter];
        wrong += seat.value(counter) != sum;
    }
    std::printf("%d adds of %d threads to %d counters: %s\n", int(THREADS * ADDS), int(THREADS), int(COUNTERS),
                wrong ? "some were lost" : "none was lost");
    return wrong ? 1 : 0;
}
