// Nanoseconds of the calls of a log, by threads with a slot and words of their own: a line for each call and number of
// threads. ./hl bench puts them beside the Rust log's.
#include "hl_log.hpp"

#include <algorithm>
#include <atomic>
#include <chrono>
#include <cstdio>
#include <thread>
#include <vector>

using hl::Word;
using Clock = std::chrono::steady_clock;

// Of so many runs the best counts.
static const int RUNS = 9;
static const Word CALLS = 200000, WORDS = 64;

enum class Timed { Refresh, Allocate, Store, Load, Look };

/// Makes the calls of one thread, none of which is refused: some number that they told.
static Word make(hl::Pass &pass, Timed call, Word first) {
    Word told = 0;
    for (Word i = 0; i < CALLS; i++) {
        switch (call) {
        case Timed::Refresh: told += pass.refresh()->epoch; break;
        case Timed::Allocate: told += *pass.allocate(1); break;
        case Timed::Store: told += pass.store(first + i % WORDS, i).has_value(); break;
        case Timed::Load: told += *pass.load(first + i % WORDS); break;
        case Timed::Look: told += pass.look().read_only; break;
        }
    }
    return told;
}

/// Nanoseconds a call, where so many threads make such calls at once.
static double timed(Word count, Timed call) {
    hl::Log log = hl::Log::open(hl::Sizes::checked(4096, 256, count, 4).value()).value();
    std::atomic<Word> waiting{count}, told{0};
    std::vector<Clock::time_point> begins(count), ends(count);
    std::vector<std::thread> threads;
    for (Word slot = 0; slot < count; slot++)
        threads.emplace_back([&, slot] {
            hl::Pass pass = log.acquire(slot).value();
            Word first = pass.allocate(WORDS).value();
            waiting--;
            while (waiting != 0)
                std::this_thread::yield();
            begins[slot] = Clock::now();
            told += make(pass, call, first);
            ends[slot] = Clock::now();
        });
    for (std::thread &thread : threads)
        thread.join();
    auto span = *std::max_element(ends.begin(), ends.end()) - *std::min_element(begins.begin(), begins.end());
    return std::chrono::duration<double, std::nano>(span).count() / CALLS;
}

int main() {
    static const char *const names[] = {"refresh", "allocate", "store", "load", "look"};
    for (Timed call : {Timed::Refresh, Timed::Allocate, Timed::Store, Timed::Load, Timed::Look})
        for (Word threads : {1, 4}) {
            double least = timed(threads, call);
            for (int run = 1; run < RUNS; run++)
                least = std::min(least, timed(threads, call));
            std::printf("%s %d %.1f\n", names[static_cast<int>(call)], static_cast<int>(threads), least);
        }
}
