// What a thread does in its slot of a log of hl_log.hpp, which includes this header: the pass, the regions of the log,
// and pieces from which small records are taken. Like that header it isn't proved: it hands the proved calls of
// hl_log.h on, and what it does with more than one of them is a loop without a decision of its own.
#ifndef HL_PASS_HPP
#define HL_PASS_HPP

#include "hl.hpp"
#include "hl_log.h"

#include <atomic>
#include <cstddef>
#include <mutex>
#include <optional>
#include <utility>

namespace hl {
inline namespace HL_FORM {

class Log;

/// What may be done to a word of the log.
enum class Region : Word {
    /// The pass may store there.
    Mutable = HL_REGION_MUTABLE,
    /// The pass may store there no more, and another may still.
    Fuzzy = HL_REGION_FUZZY,
    /// No pass may store there.
    ReadOnly = HL_REGION_READ_ONLY,
    /// The pass may not load there: the word is on the device.
    Evicted = HL_REGION_EVICTED,
};

/// Up to where a log is sealed, where a page begins; and the ticket of the settle on which that waits, if one was stored.
struct Sealed {
    Word address;
    std::optional<Word> ticket;
};

/// A piece of the log that one call placed, from which records are taken without the lock: the usual way to place small
/// ones. It gives no right: each store still asks the pass. What is left of it may be let go, since nobody else gets its
/// words. Nothing is left where it was moved from.
class Lease {
  public:
    /// A piece of no words.
    Lease() = default;
    Lease(Lease &&other) noexcept : next_(std::exchange(other.next_, other.end_)), end_(other.end_) {}
    Lease &operator=(Lease &&other) noexcept {
        next_ = std::exchange(other.next_, other.end_);
        end_ = other.end_;
        return *this;
    }

    /// Takes a record of so many words from the front of what is left: its address. None, and nothing is taken: of no
    /// words, or of more than are left.
    [[nodiscard]] std::optional<Word> take(Word words) noexcept {
        if (words == 0 || words > left()) return std::nullopt;
        return std::exchange(next_, next_ + words);
    }
    /// How many words are left.
    Word left() const noexcept { return end_ - next_; }

  private:
    friend class Pass;
    Lease(Word address, Word words) noexcept : next_(address), end_(address + words) {}

    Word next_ = 0;
    Word end_ = 0;
};

namespace detail {

/// What a log, its passes and its pages share: the proved log, and its lock.
struct Block {
    Block() = default;
    Block(const Block &) = delete;
    Block &operator=(const Block &) = delete;
    ~Block() { hl_log_free(&log); }

    std::mutex mutex;
    hl_log log{};
    Word page_size = 0;
    // How many have it.
    std::atomic<Word> owners{1};
};

/// One of those that have a block; the last one gives it back.
class Shared {
  public:
    Shared() = default;
    explicit Shared(Block *block) noexcept : block_(block) {}
    Shared(const Shared &other) noexcept : block_(other.block_) {
        if (block_) block_->owners.fetch_add(1, std::memory_order_relaxed);
    }
    Shared(Shared &&other) noexcept : block_(std::exchange(other.block_, nullptr)) {}
    Shared &operator=(Shared other) noexcept {
        std::swap(block_, other.block_);
        return *this;
    }
    ~Shared() {
        if (block_ && block_->owners.fetch_sub(1, std::memory_order_acq_rel) == 1) delete block_;
    }

    explicit operator bool() const noexcept { return block_ != nullptr; }
    /// Words a page of the log, and 0 of none.
    Word page_size() const noexcept { return block_ ? block_->page_size : 0; }

    /// Makes a call of the log under its lock, or of one that isn't open.
    template <class Call, class... Words> auto ask(Call call, Words... words) const noexcept {
        hl_log none{};
        if (!block_) return call(&none, words...);
        std::lock_guard<std::mutex> lock(block_->mutex);
        return call(&block_->log, words...);
    }

  private:
    Block *block_ = nullptr;
};

/// An action that was taken, which is done where this goes out of scope, whatever its job did.
class Taken {
  public:
    Taken(const Shared &shared, Word ticket) noexcept : shared_(shared), ticket_(ticket) {}
    Taken(const Taken &) = delete;
    Taken &operator=(const Taken &) = delete;
    ~Taken() { (void)shared_.ask(hl_log_done, ticket_); }

  private:
    const Shared &shared_;
    Word ticket_;
};

} // namespace detail

/// A protected slot of a log, which is released where it goes out of scope. One thread at a time uses a pass. Refresh
/// often: a slot that doesn't holds back each action that was stored since. Threads may store to one word, and a load
/// finds one of the words stored there. Where it was moved from its calls answer NoCore.
class Pass {
  public:
    Pass(Pass &&other) noexcept
        : shared_(std::move(other.shared_)), pass_(std::exchange(other.pass_, {})), slot_(other.slot_),
          view_(other.view_) {}
    /// The slot that was here is released, and the other one's is here.
    Pass &operator=(Pass &&other) noexcept {
        Pass taken(std::move(other));
        std::swap(shared_, taken.shared_);
        std::swap(pass_, taken.pass_);
        std::swap(slot_, taken.slot_);
        std::swap(view_, taken.view_);
        return *this;
    }
    ~Pass() {
        if (!shared_) return;
        (void)shared_.ask(hl_log_release, &pass_);
        hl_pass_abandon(&pass_);
    }

    Word slot() const noexcept { return slot_; }
    /// What the slot has seen.
    View view() const noexcept { return view_; }

    // ---- Under the lock ----

    /// Moves on to the current epoch, and sees the offsets as they are.
    [[nodiscard]] Result<Entered> refresh() noexcept {
        hl_outcome told = shared_.ask(hl_log_refresh, &pass_);
        if (told.number == 0) view_ = detail::view_of(told);
        return detail::entered(told);
    }
    /// Places a record of so many words, and sees the tail behind it: its address. Size, SpaceSpent, Busy.
    [[nodiscard]] Result<Word> allocate(Word words) noexcept {
        auto address = detail::one(shared_.ask(hl_log_allocate, &pass_, words));
        if (address) view_.tail = *address + words;
        return address;
    }
    /// Places a piece of so many words, as allocate() places a record. Size, SpaceSpent, Busy.
    [[nodiscard]] Result<Lease> lease(Word words) noexcept {
        auto address = allocate(words);
        if (!address) return Refused(address.error());
        return Lease(*address, words);
    }
    /// Places a record and stores its words: its address. The pass sees no raise in between, so no store is refused. Size,
    /// where there are no words or more than a page has, or a null pointer; SpaceSpent, Busy.
    [[nodiscard]] Result<Word> append(const Word *words, std::size_t count) noexcept {
        auto address = allocate(words ? count : 0);
        if (!address) return address;
        for (std::size_t i = 0; i < count; i++) {
            auto stored = store(*address + i, words[i]);
            if (!stored) return Refused(stored.error());
        }
        return address;
    }
    /// Seals all up to the tail, so that the last pages can be flushed: allocates the words that are left of the tail's
    /// page, raises the read-only offset to the tail, and stores a settle, each where it is due. Once that is done, each
    /// page below is sealed. Sees the offsets as they are, where it is refused too. DrainFull, EpochsSpent, WindowFull: the
    /// settle is refused, and another call goes on from there. A call while a settle waits stores one more.
    [[nodiscard]] Result<Sealed> seal() noexcept {
        hl_outcome told = shared_.ask(hl_log_seal, &pass_);
        (void)look();
        return detail::made(told, [](const hl_outcome &it) {
            return Sealed{it.a, it.b == 1 ? std::optional<Word>(it.c) : std::nullopt};
        });
    }
    /// Has all below the tail written, as a log wants at its end: seals it, carries out the actions that are ready, hands
    /// the tags of jobs to `job`, and hands each sealed page to `write(page, words, count)`, which returns whether the
    /// page is on the device. Returns the flushed offset, once it is at what was the tail. Others may flush at the same
    /// time, and the pass stays protected meanwhile, so `write` holds up the actions of others.
    ///
    /// It gives up after so many turns in a row in which neither the safe read-only offset nor the flushed one rose, each of
    /// a millisecond or more, with what stood in the way. What was written stays so, and another call goes on from there.
    ///
    /// Device: `write` returned false. NotReady: a slot that doesn't refresh holds an action up. Empty: another thread took
    /// the settle, and it isn't done. NoneSealed: another thread has a page in flight. DrainFull, WindowFull: no settle
    /// could be stored. EpochsSpent and OutOfMemory at once. Throws what `write` or `job` does.
    template <class Write, class Job> [[nodiscard]] Result<Word> flush(Word turns, Write &&write, Job &&job);
    /// Brings the pass up to date, as a thread wants before each of its operations: without the lock where nothing is new
    /// to it (keeps_up), else by a refresh. What it sees.
    [[nodiscard]] Result<View> keep_up() noexcept {
        if (keeps_up()) return view_;
        auto entered = refresh();
        if (!entered) return Refused(entered.error());
        return view_;
    }
    /// Helps the log on, as a thread wants between two tries: takes the oldest action, if it is ready, hands the tag of a
    /// job to `job`, and the action is done; then refreshes. Whether it took one. An action is done where its job throws,
    /// too.
    template <class Job> [[nodiscard]] Result<bool> help(Job &&job) {
        auto action = carry_out(job);
        if (!action && action.error() != Fault::Empty && action.error() != Fault::NotReady)
            return Refused(action.error());
        auto entered = refresh();
        if (!entered) return Refused(entered.error());
        return action.has_value();
    }
    /// Releases the slot while `work` runs, as for a wait for a device, so that it holds nothing back; then protects it
    /// again (FASTER's Suspend and Resume). What was looked up before must be looked up anew. Occupied: another has the
    /// slot now; OutOfMemory. The pass then has no slot, as where `work` throws, and its calls answer NoCore.
    template <class Work> [[nodiscard]] Result<Entered> rest(Work &&work) {
        auto released = detail::nothing(shared_.ask(hl_log_release, &pass_));
        if (!released) return Refused(released.error());
        work();
        auto entered = detail::entered(shared_.ask(hl_log_acquire, &pass_, slot_));
        if (entered) view_ = entered->view;
        return entered;
    }

    // ---- Without the lock ----

    /// Sees the read-only offset and the head as they are now, without the lock.
    View look() noexcept {
        hl_outcome told = hl_pass_look(&pass_);
        if (told.number == 0) view_ = detail::view_of(told);
        return view_;
    }
    /// Whether nothing is new to it: neither offset is above the one that it sees, and the epoch of its slot hasn't ended.
    /// If something is, look or refresh. It takes no lock.
    bool keeps_up() noexcept { return hl_pass_keeps_up(&pass_) == 1; }
    /// Stores a word, without the lock. Below, Beyond.
    [[nodiscard]] Result<void> store(Word address, Word word) noexcept {
        return detail::nothing(hl_pass_store(&pass_, address, word));
    }
    /// Loads a word, without the lock; one that was never stored is 0. Evicted, Beyond.
    [[nodiscard]] Result<Word> load(Word address) noexcept { return detail::one(hl_pass_load(&pass_, address)); }
    /// Loads the words from an address on, one after another, as many as there are places. Evicted, Beyond; Size, where
    /// the places are a null pointer. Nothing is loaded then.
    [[nodiscard]] Result<void> load_into(Word address, Word *words, std::size_t count) noexcept {
        Word no_word = 0;
        if (!words && count != 0) return Refused(Refusal{Fault::Size});
        return detail::nothing(hl_pass_load_into(&pass_, address, words ? words : &no_word, count));
    }
    /// Which region the word of an address is in, by what the pass sees and the safe read-only offset as it is now. Beyond,
    /// where the address isn't below the tail that the pass sees, nor evicted. A word in the fuzzy region is read-only for
    /// all once each pass has moved on and the settle is done; till then what it has may change.
    [[nodiscard]] Result<Region> region(Word address) noexcept {
        return detail::made(hl_pass_region(&pass_, address),
                            [](const hl_outcome &it) { return static_cast<Region>(it.a); });
    }
    /// Adds to a word in one step, modulo 2^64, without the lock: what it found. Below, Beyond.
    [[nodiscard]] Result<Word> fetch_add(Word address, Word more) noexcept {
        return detail::one(hl_pass_fetch_add(&pass_, address, more));
    }
    /// Stores a word where `current` stands, in one step and without the lock: what it found, so it stored where that is
    /// `current`. Below, Beyond.
    [[nodiscard]] Result<Word> compare_exchange(Word address, Word current, Word word) noexcept {
        return detail::one(hl_pass_compare_exchange(&pass_, address, current, word));
    }

  private:
    friend class Log;

    Offsets offsets() const noexcept { return detail::offsets_of(shared_.ask(hl_log_six)); }
    /// Takes the oldest action, hands the tag of a job to `job`, and the action is done. Empty, NotReady.
    template <class Job> Result<Action> carry_out(Job &job) {
        auto action = detail::action(shared_.ask(hl_log_take));
        if (action) {
            detail::Taken taken(shared_, action->ticket);
            if (action->tag) job(*action->tag);
        }
        return action;
    }

    Pass(detail::Shared shared, hl_pass pass, Word slot, View view) noexcept
        : shared_(std::move(shared)), pass_(pass), slot_(slot), view_(view) {}

    detail::Shared shared_;
    hl_pass pass_;
    Word slot_;
    View view_;
};

} // namespace HL_FORM
} // namespace hl

#endif
