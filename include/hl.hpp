// hl for C++17: the core of hl.h as a value that frees itself, slots that are released where they go out of scope, and
// answers that are a value or the fault that refused the call. This header is not proved: it hands the proved calls of
// hl.h on, whose comments say what each does and what refuses it; docs/RULES.md has the rules.
//
// No call throws, unless you ask for it: by value() of an answer, or by HL_EXCEPTIONS, which adds constructors that do.
// hl_answers.hpp has the answers, hl_values.hpp what they tell.
//
// One thread at a time uses a core and its slots: keep them under one lock. hl_log.hpp has a log for many threads.
#ifndef HL_HPP
#define HL_HPP

#include "hl_values.hpp"

#include <memory>
#include <new>
#include <optional>
#include <utility>

namespace hl {
inline namespace HL_FORM {

namespace detail {

/// An open core's handle. Of each slot it knows how often it changed hands, so that a slot's former holder is known.
struct Held {
    Held() = default;
    Held(const Held &) = delete;
    Held &operator=(const Held &) = delete;
    ~Held() { hl_free(&core); }

    hl_core core{};
    std::unique_ptr<Word[]> times;
};

/// Makes a call of this core, or of one that isn't open.
template <class Call, class... Words> auto ask(Call call, Held *held, Words... words) noexcept {
    hl_core none{};
    return call(held ? &held->core : &none, words...);
}

inline Refused refused(Word number, Word first = 0, Word second = 0) noexcept {
    return Refused(Refusal{static_cast<Fault>(number), first, second});
}

inline Result<void> nothing(hl_brief told) noexcept {
    if (told.number != 0) return refused(told.number, told.a);
    return {};
}

inline Result<Word> one(hl_brief told) noexcept {
    if (told.number != 0) return refused(told.number, told.a);
    return told.a;
}

/// A view, whose numbers are read one by one, as the library stores them: a read of two at once, into which compilers
/// join them where they may, would wait until both stores have left the processor's buffer.
inline View view_of(const volatile hl_outcome &told) noexcept { return {told.b, told.c, told.d}; }

/// The answer that some function makes of an accepted call.
template <class Make> auto made(const hl_outcome &told, Make make) -> Result<decltype(make(told))> {
    if (told.number != 0) return refused(told.number, told.a, told.b);
    return make(told);
}

inline Result<Entered> entered(const hl_outcome &told) {
    return made(told, [](const volatile hl_outcome &it) { return Entered{it.a, view_of(it)}; });
}

inline Result<Action> action(const hl_outcome &told) {
    return made(told, [](const hl_outcome &it) {
        return Action{it.a, it.b == 1 ? std::optional<Word>(it.c) : std::nullopt};
    });
}

inline Result<Done> done(const hl_outcome &told) {
    return made(told, [](const hl_outcome &it) { return Done{static_cast<Kind>(it.b), it.a}; });
}

inline Offsets offsets_of(const hl_offsets &six) noexcept {
    return {six.closed, six.head, six.flushed, six.safe_read_only, six.read_only, six.tail};
}

inline Snapshot snapshot_of(const hl_quantities &all) noexcept {
    const Word *frames = all.frames;
    return {all.epoch,
            all.safe,
            all.protected_slots,
            all.pending,
            all.taken,
            offsets_of(all.six),
            {frames[0], frames[1], frames[2], frames[3], frames[4]}};
}

inline Result<Lag> lag_of(const hl_lag_steps &told) noexcept {
    if (told.number != 0) return refused(told.number);
    return Lag(told);
}

} // namespace detail

// ---- A slot ----

/// A protected slot of a core, which is released where it goes out of scope. The core must outlive it, and may be moved
/// meanwhile. After release() and keep(), and where it was moved from, it is of no core: its calls answer NoCore. Once
/// the core released it by its number it isn't protected, whoever has that slot then: its calls answer NotProtected.
class Slot {
  public:
    Slot(Slot &&other) noexcept
        : held_(std::exchange(other.held_, nullptr)), number_(other.number_), time_(other.time_),
          entered_(other.entered_) {}
    /// The slot that was here is released, and the other one's is here.
    Slot &operator=(Slot &&other) noexcept {
        Slot taken(std::move(other));
        std::swap(held_, taken.held_);
        std::swap(number_, taken.number_);
        std::swap(time_, taken.time_);
        std::swap(entered_, taken.entered_);
        return *this;
    }
    ~Slot() { (void)release(); }

    Word number() const noexcept { return number_; }
    /// What it learned by its acquire, or by its last refresh.
    const Entered &entered() const noexcept { return entered_; }

    [[nodiscard]] Result<Entered> refresh() {
        auto now = detail::entered(ask<hl_outcome>(hl_refresh));
        if (now) entered_ = *now;
        return now;
    }
    [[nodiscard]] Result<Word> allocate(Word words) { return detail::one(ask<hl_brief>(hl_allocate, words)); }
    [[nodiscard]] Result<View> look(Word read_only, Word head) {
        return detail::made(ask<hl_outcome>(hl_look, read_only, head), detail::view_of);
    }
    /// Whether it may write the word at an address. The word is yours to write.
    [[nodiscard]] Result<void> may_write(Word address) const {
        return detail::nothing(ask<hl_brief>(hl_write, address, Word{0}));
    }
    /// Whether it may read the word at an address.
    [[nodiscard]] Result<void> may_read(Word address) const { return detail::nothing(ask<hl_brief>(hl_read, address)); }

    /// Releases it now.
    [[nodiscard]] Result<void> release() noexcept {
        auto told = detail::nothing(ask<hl_brief>(hl_release));
        if (told.has_value()) held_->times[number_]++;
        held_ = nullptr;
        return told;
    }
    /// Leaves the slot protected, for calls of the core by its number.
    Word keep() noexcept {
        held_ = nullptr;
        return number_;
    }

  private:
    friend class Core;
    Slot(detail::Held *held, Word number, Entered entered) noexcept
        : held_(held), number_(number), time_(held->times[number]), entered_(entered) {}

    /// Makes a call of its core for the slot, if the slot is still its own.
    template <class Told, class Call, class... Words> Told ask(Call call, Words... words) const noexcept {
        if (held_ && held_->times[number_] != time_) {
            Told told{};
            told.number = HL_NOT_PROTECTED;
            return told;
        }
        return detail::ask(call, held_, number_, words...);
    }

    detail::Held *held_;
    Word number_;
    Word time_;
    Entered entered_;
};

// ---- A core ----

/// A core. It moves, and frees itself; where it was moved from, its calls answer NoCore.
class Core {
  public:
    /// A core at the empty list. OutOfMemory: malloc refused.
    [[nodiscard]] static Result<Core> open(Sizes sizes) {
        Core core;
        core.at_.reset(new (std::nothrow) detail::Held);
        if (!core.at_) return Refused(Refusal{Fault::OutOfMemory});
        core.at_->times.reset(new (std::nothrow) Word[sizes.slots()]{});
        if (!core.at_->times) return Refused(Refusal{Fault::OutOfMemory});
        Word number =
            hl_open_wide(&core.at_->core, sizes.page_size(), sizes.frames(), sizes.slots(), sizes.drain_places());
        if (number != 0) return detail::refused(number);
        return core;
    }

#if defined(HL_EXCEPTIONS)
    /// As open(), whose fault it throws.
    explicit Core(Sizes sizes) : Core(open(sizes).value()) {}
#endif

    /// Its handle, for calls of hl.h; null where it was moved from.
    hl_core *handle() noexcept { return at_ ? &at_->core : nullptr; }

    /// Protects a slot until what this answers goes out of scope. A core that goes away at once has none: it must
    /// outlive what it gives.
    [[nodiscard]] Result<Slot> acquire(Word slot) && = delete;
    [[nodiscard]] Result<Slot> acquire(Word slot) & {
        auto entered = detail::entered(detail::ask(hl_acquire, at_.get(), slot));
        if (!entered) return Refused(entered.error());
        return Slot(at_.get(), slot, *entered);
    }
    [[nodiscard]] Result<Entered> refresh(Word slot) {
        return detail::entered(detail::ask(hl_refresh, at_.get(), slot));
    }
    /// Releases a slot by its number; a Slot of that number that is still there is of nobody then.
    [[nodiscard]] Result<void> release(Word slot) {
        auto told = detail::nothing(detail::ask(hl_release, at_.get(), slot));
        if (told.has_value()) at_->times[slot]++;
        return told;
    }
    [[nodiscard]] Result<Word> allocate(Word slot, Word words) {
        return detail::one(detail::ask(hl_allocate, at_.get(), slot, words));
    }
    [[nodiscard]] Result<View> look(Word slot, Word read_only, Word head) {
        return detail::made(detail::ask(hl_look, at_.get(), slot, read_only, head), detail::view_of);
    }
    [[nodiscard]] Result<void> may_write(Word slot, Word address) const {
        return detail::nothing(detail::ask(hl_write, at_.get(), slot, address, Word{0}));
    }
    [[nodiscard]] Result<void> may_read(Word slot, Word address) const {
        return detail::nothing(detail::ask(hl_read, at_.get(), slot, address));
    }

    [[nodiscard]] Result<Word> bump(Word tag) { return detail::one(detail::ask(hl_bump, at_.get(), tag)); }
    [[nodiscard]] Result<Word> settle() { return detail::one(detail::ask(hl_settle, at_.get())); }
    [[nodiscard]] Result<Word> close() { return detail::one(detail::ask(hl_close, at_.get())); }
    [[nodiscard]] Result<Word> bare() { return detail::one(detail::ask(hl_bare, at_.get())); }
    [[nodiscard]] Result<Action> take() { return detail::action(detail::ask(hl_take, at_.get())); }
    [[nodiscard]] Result<Done> done(Word ticket) { return detail::done(detail::ask(hl_done, at_.get(), ticket)); }

    [[nodiscard]] Result<Word> raise(Word address) { return detail::one(detail::ask(hl_raise, at_.get(), address)); }
    [[nodiscard]] Result<Word> shift(Word address) { return detail::one(detail::ask(hl_shift, at_.get(), address)); }
    [[nodiscard]] Result<Word> flush_take() { return detail::one(detail::ask(hl_flush_take, at_.get())); }
    [[nodiscard]] Result<Word> flush_done(Word page, bool ok) {
        return detail::one(detail::ask(hl_flush_done, at_.get(), page, ok));
    }
    [[nodiscard]] Result<Word> clean_take() { return detail::one(detail::ask(hl_clean_take, at_.get())); }
    [[nodiscard]] Result<Word> clean_done(Word page) {
        return detail::one(detail::ask(hl_clean_done, at_.get(), page));
    }

    [[nodiscard]] Result<Offsets> offsets() const {
        hl_offsets six = detail::ask(hl_six, at_.get());
        if (six.number != 0) return detail::refused(six.number);
        return detail::offsets_of(six);
    }
    /// The old name of offsets().
    [[nodiscard]] [[deprecated("use offsets()")]] Result<Offsets> six() const { return offsets(); }
    [[nodiscard]] Result<Snapshot> snapshot() const {
        hl_quantities all = detail::ask(hl_snapshot, at_.get());
        if (all.number != 0) return detail::refused(all.number);
        return detail::snapshot_of(all);
    }
    /// The steps that a flusher makes next, for whoever wants about so many pages at the tail to be written and about
    /// so many to be read; hl_lag says more. OutOfRange: not 1 <= mutable_pages <= resident_pages < frames.
    [[nodiscard]] Result<Lag> lag(Word mutable_pages, Word resident_pages) const {
        return detail::lag_of(detail::ask(hl_lag, at_.get(), mutable_pages, resident_pages));
    }
    [[nodiscard]] Result<Pending> pending(Word place) const {
        return detail::made(detail::ask(hl_pending, at_.get(), place), [](const hl_outcome &it) {
            return Pending{it.a, static_cast<Kind>(it.b), it.c, it.d};
        });
    }
    [[nodiscard]] Result<Frame> frame(Word frame) const {
        return detail::made(detail::ask(hl_frame, at_.get(), frame), [](const hl_outcome &it) {
            return Frame{static_cast<FrameState>(it.a), it.b == 1 ? std::optional<Word>(it.c) : std::nullopt};
        });
    }
    /// None where the slot isn't protected. OutOfRange: there is no such slot.
    [[nodiscard]] Result<std::optional<View>> view(Word slot) const {
        return detail::made(detail::ask(hl_view, at_.get(), slot), [](const hl_outcome &it) {
            return it.a == 1 ? std::optional<View>(detail::view_of(it)) : std::nullopt;
        });
    }

  private:
    Core() = default;

    std::unique_ptr<detail::Held> at_;
};

} // namespace HL_FORM
} // namespace hl

#endif
