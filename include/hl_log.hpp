// A log for many threads in C++17, of which every decision is proved: the log of hl_log.h behind a mutex of its own. What
// this header adds isn't proved: the mutex, handles that free themselves, and C++'s names and errors. Tests compare the
// log with its core step by step.
//
// Each thread acquires a slot of its own and has a pass for it. Its stores, loads, changes and looks take no lock: they
// are judged by what the slot has seen, its view. Whoever flushes raises the read-only offset and settles it, takes the
// sealed pages and copies them, shifts the head, closes what lies below it, and sweeps the closed pages. docs/RULES.md
// has the rules.
//
// An operation of an engine begins with keep_up(), asks for the region() of a record, and calls help() between two tries:
// the example counters.cpp adds to counters so, whose pages leave memory meanwhile. At the end flush() of a pass has all
// that is left written.
//
// A pass and a page may outlive their log, and the log may be moved: what they share is kept until the last of them is
// gone. No call throws but value() of an answer, and help(), rest() and flush() what is thrown by a function that they
// call.
#ifndef HL_LOG_HPP
#define HL_LOG_HPP

#include "hl_pass.hpp"

#include <atomic>
#include <chrono>
#include <cstddef>
#include <memory>
#include <new>
#include <optional>
#include <thread>
#include <utility>

namespace hl {
inline namespace HL_FORM {

/// A slot that holds up the oldest pending action: its epoch isn't above the action's ticket. count slots do.
struct Holder {
    Word slot;
    Word epoch;
    Word ticket;
    Word count;
};

// ---- Pages ----

/// A sealed page that was taken to be flushed: no thread stores to it any more. Where it goes out of scope before
/// done(), its flush has failed, and the page may be taken again. Once it is done, and where it was moved from, its calls
/// answer NoCore.
class Flush {
  public:
    Flush(Flush &&other) noexcept
        : shared_(std::move(other.shared_)), page_(std::exchange(other.page_, {})), number_(other.number_) {}
    /// The flush of the page that was here has failed, and the other one's page is here.
    Flush &operator=(Flush &&other) noexcept {
        Flush taken(std::move(other));
        std::swap(shared_, taken.shared_);
        std::swap(page_, taken.page_);
        std::swap(number_, taken.number_);
        return *this;
    }
    ~Flush() {
        if (!shared_) return;
        (void)shared_.ask(hl_log_flush_done, &page_, false);
        hl_page_abandon(&page_);
    }

    /// Its number: its first word has the address page() * page_size.
    Word page() const noexcept { return number_; }

    /// Copies its words without the lock, into room for as many as a page has. Size: there is room for another number.
    [[nodiscard]] Result<void> copy(Word *words, std::size_t count) noexcept {
        return detail::nothing(hl_log_copy_page(&page_, words, count));
    }

    /// It is on the device: the flushed offset.
    [[nodiscard]] Result<Word> done() noexcept {
        auto told = detail::one(shared_.ask(hl_log_flush_done, &page_, true));
        if (told) shared_ = {};
        return told;
    }

  private:
    friend class Log;
    friend class Pass;
    static Result<Flush> take(const detail::Shared &shared) noexcept {
        hl_page page{};
        auto number = detail::one(shared.ask(hl_log_flush_take, &page));
        if (!number) return Refused(number.error());
        return Flush(shared, page, *number);
    }
    Flush(detail::Shared shared, hl_page page, Word number) noexcept
        : shared_(std::move(shared)), page_(page), number_(number) {}

    detail::Shared shared_;
    hl_page page_;
    Word number_;
};

/// A closed page that was taken to be cleaned: no thread reads it any more. It is swept where it goes out of scope,
/// too.
class Clean {
  public:
    Clean(Clean &&other) noexcept
        : shared_(std::move(other.shared_)), page_(std::exchange(other.page_, {})), number_(other.number_) {}
    /// The page that was here is swept, and the other one's is here.
    Clean &operator=(Clean &&other) noexcept {
        Clean taken(std::move(other));
        std::swap(shared_, taken.shared_);
        std::swap(page_, taken.page_);
        std::swap(number_, taken.number_);
        return *this;
    }
    ~Clean() {
        if (!shared_) return;
        (void)sweep();
        hl_page_abandon(&page_);
    }

    Word page() const noexcept { return number_; }

    /// Zeroes its words, without the lock, and frees its frame: the page. NoCore where it was swept before.
    [[nodiscard]] Result<Word> sweep() noexcept {
        auto swept = detail::one(hl_log_sweep(&page_));
        if (!swept) return swept;
        auto told = detail::one(shared_.ask(hl_log_clean_done, &page_));
        if (told) shared_ = {};
        return told;
    }

  private:
    friend class Log;
    Clean(detail::Shared shared, hl_page page, Word number) noexcept
        : shared_(std::move(shared)), page_(page), number_(number) {}

    detail::Shared shared_;
    hl_page page_;
    Word number_;
};

// ---- A log ----

namespace detail {

/// A stamp for one more log: 2^32 times its number, so that the stamps of its slots are no other log's.
inline Word next_stamp() noexcept {
    static std::atomic<Word> logs{0};
    return logs.fetch_add(1, std::memory_order_relaxed) % (Word{1} << 30) << 32;
}

} // namespace detail

/// A log that threads share by a reference. It moves, and frees itself. Where it was moved from its calls answer NoCore,
/// or only zeros.
class Log {
  public:
    /// A log where nothing was done yet. OutOfMemory: memory was refused.
    [[nodiscard]] static Result<Log> open(Sizes sizes) noexcept {
        auto *block = new (std::nothrow) detail::Block;
        if (!block) return Refused(Refusal{Fault::OutOfMemory});
        block->page_size = sizes.page_size();
        Log log(detail::Shared(block), sizes);
        Word number = hl_log_open_wide(&block->log, sizes.page_size(), sizes.frames(), sizes.slots(),
                                       sizes.drain_places(), detail::next_stamp());
        if (number != 0) return detail::refused(number);
        return log;
    }

    Sizes sizes() const noexcept { return sizes_; }

    /// Protects a slot until the pass goes out of scope. NoSlot, Occupied, OutOfMemory.
    [[nodiscard]] Result<Pass> acquire(Word slot) noexcept {
        hl_pass pass{};
        auto entered = detail::entered(shared_.ask(hl_log_acquire, &pass, slot));
        if (!entered) return Refused(entered.error());
        return Pass(shared_, pass, slot, entered->view);
    }

    // The calls of a core, under the lock.
    [[nodiscard]] Result<Word> bump(Word tag) noexcept { return detail::one(shared_.ask(hl_log_bump, tag)); }
    [[nodiscard]] Result<Word> settle() noexcept { return detail::one(shared_.ask(hl_log_settle)); }
    [[nodiscard]] Result<Word> close() noexcept { return detail::one(shared_.ask(hl_log_close)); }
    [[nodiscard]] Result<Word> bare() noexcept { return detail::one(shared_.ask(hl_log_bare)); }
    [[nodiscard]] Result<Action> take() noexcept { return detail::action(shared_.ask(hl_log_take)); }
    [[nodiscard]] Result<Done> done(Word ticket) noexcept { return detail::done(shared_.ask(hl_log_done, ticket)); }
    [[nodiscard]] Result<Word> raise(Word address) noexcept { return detail::one(shared_.ask(hl_log_raise, address)); }
    [[nodiscard]] Result<Word> shift(Word address) noexcept { return detail::one(shared_.ask(hl_log_shift, address)); }

    /// Takes the least sealed page that is neither flushed nor in flight, to be copied. NoneSealed, OutOfMemory.
    [[nodiscard]] Result<Flush> flush_take() noexcept { return Flush::take(shared_); }
    /// Takes the least closed page that is neither freed nor being cleaned, to be swept. NoneClosed, OutOfMemory.
    [[nodiscard]] Result<Clean> clean_take() noexcept {
        hl_page page{};
        auto number = detail::one(shared_.ask(hl_log_clean_take, &page));
        if (!number) return Refused(number.error());
        return Clean(shared_, page, *number);
    }

    Offsets offsets() const noexcept { return detail::offsets_of(shared_.ask(hl_log_six)); }
    /// The old name of offsets().
    [[deprecated("use offsets()")]] Offsets six() const noexcept { return offsets(); }
    Snapshot snapshot() const noexcept { return detail::snapshot_of(shared_.ask(hl_log_snapshot)); }
    /// As that of a core: give the answer a name before a `for` goes through it.
    [[nodiscard]] Result<Lag> lag(Word mutable_pages, Word resident_pages) const noexcept {
        return detail::lag_of(shared_.ask(hl_log_lag, mutable_pages, resident_pages));
    }
    /// The slot at a place among those that hold the oldest pending action up, 0 being the least. OutOfRange: fewer do, or
    /// no action is pending.
    [[nodiscard]] Result<Holder> holder(Word place) const noexcept {
        return detail::made(shared_.ask(hl_log_holders, place),
                            [](const hl_outcome &it) { return Holder{it.a, it.b, it.c, it.d}; });
    }

  private:
    Log(detail::Shared shared, Sizes sizes) noexcept : shared_(std::move(shared)), sizes_(sizes) {}

    detail::Shared shared_;
    Sizes sizes_;
};

// ---- A pass that flushes ----

template <class Write, class Job> Result<Word> Pass::flush(Word turns, Write &&write, Job &&job) {
    std::size_t count = static_cast<std::size_t>(shared_.page_size());
    std::unique_ptr<Word[]> words(new (std::nothrow) Word[count]);
    if (!words) return Refused(Refusal{Fault::OutOfMemory});
    Offsets now = offsets();
    std::optional<Word> end;
    for (Word left = turns;;) {
        Offsets was = now;
        Refusal met{Fault::NoneSealed};
        if (!end) {
            auto sealed = seal();
            if (sealed) {
                end = sealed->address;
            } else {
                met = sealed.error();
                if (met != Fault::DrainFull && met != Fault::WindowFull) return Refused(met);
            }
        }
        if (!end || offsets().safe_read_only < *end) {
            auto action = carry_out(job);
            while (action)
                action = carry_out(job);
            if (end) met = action.error();
            auto entered = refresh();
            if (!entered) return Refused(entered.error());
        }
        auto page = Flush::take(shared_);
        for (; page; page = Flush::take(shared_)) {
            if (auto copied = page->copy(words.get(), count); !copied) return Refused(copied.error());
            if (!write(page->page(), static_cast<const Word *>(words.get()), count)) break;
            if (auto done = page->done(); !done) return Refused(done.error());
        }
        if (page) {
            met = Refusal{Fault::Device};
        } else if (page.error() != Fault::NoneSealed) {
            return Refused(page.error());
        }
        now = offsets();
        if (end && now.flushed >= *end) return now.flushed;
        if (now.flushed > was.flushed || now.safe_read_only > was.safe_read_only) {
            left = turns;
        } else if (left <= 1) {
            return Refused(met);
        } else {
            left--;
            // The page that wasn't written goes back first.
            page = Refused(met);
            std::this_thread::sleep_for(std::chrono::milliseconds(1));
        }
    }
}

} // namespace HL_FORM
} // namespace hl

#endif
