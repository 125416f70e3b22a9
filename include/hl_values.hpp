// What calls of hl.hpp and hl_log.hpp tell beside a fault: views, actions, frames, offsets and quantities; and a core's
// sizes, which are checked here.
#ifndef HL_VALUES_HPP
#define HL_VALUES_HPP

#include "hl_answers.hpp"

#include <array>
#include <cstddef>
#include <optional>

namespace hl {
inline namespace HL_FORM {

/// What a slot sees of the log: it may write from read_only, and read from head, up to the tail.
struct View {
    Word read_only;
    Word head;
    Word tail;

    constexpr bool operator==(const View &other) const noexcept {
        return read_only == other.read_only && head == other.head && tail == other.tail;
    }
    constexpr bool operator!=(const View &other) const noexcept { return !(*this == other); }
};

/// What a slot learns by entering an epoch.
struct Entered {
    Word epoch;
    View view;
};

enum class Kind : Word { Job = HL_JOB, Settles = HL_SETTLES, Closes = HL_CLOSES };

/// A taken action: its ticket, and its tag where it is a job.
struct Action {
    Word ticket;
    std::optional<Word> tag;
};

/// What a done did: its job's tag, or the safe read-only offset, or the closed offset after it.
struct Done {
    Kind kind;
    Word value;
};

/// A pending action: its tag, or the offset that it stores; count actions are pending in all.
struct Pending {
    Word ticket;
    Kind kind;
    Word value;
    Word count;
};

enum class FrameState : Word {
    Open = HL_OPEN,
    Sealed = HL_SEALED,
    Flushed = HL_FLUSHED,
    Closed = HL_CLOSED,
    Free = HL_FREE,
};

/// A frame, and its page where it isn't free.
struct Frame {
    FrameState state;
    std::optional<Word> page;
};

/// The offsets in their order, each at most the next.
struct Offsets {
    Word closed;
    Word head;
    Word flushed;
    Word safe_read_only;
    Word read_only;
    Word tail;
};

enum class LagKind : Word {
    Raise = HL_LAG_RAISE,
    Settle = HL_LAG_SETTLE,
    Shift = HL_LAG_SHIFT,
    Close = HL_LAG_CLOSE,
};

/// A step of a lag; the address is that of a raise or a shift, and else 0.
struct LagStep {
    LagKind kind;
    Word address;
};

/// The steps of a lag, at most four, in the order in which they are to be made.
class Lag {
  public:
    const LagStep *begin() const noexcept { return steps_.data(); }
    const LagStep *end() const noexcept { return begin() + count_; }
    std::size_t size() const noexcept { return count_; }

    /// As hl_lag tells them.
    explicit Lag(const hl_lag_steps &told) noexcept : count_(static_cast<std::size_t>(told.count)) {
        for (std::size_t i = 0; i < count_; i++)
            steps_[i] = {static_cast<LagKind>(told.steps[i].kind), told.steps[i].address};
    }

  private:
    std::array<LagStep, 4> steps_{};
    std::size_t count_;
};

/// All quantities; frames counts those of each state.
struct Snapshot {
    Word epoch;
    Word safe;
    Word protected_slots;
    Word pending;
    Word taken;
    Offsets offsets;
    std::array<Word, 5> frames;
};

/// Four numbers for Sizes::of(), by their names: so none stands in another's place.
struct RawSizes {
    Word page_size;
    Word frames;
    Word slots;
    Word drain_places;
};

/// Sizes in their ranges: words a page (a power of two), frames, slots, and places in the drain list.
class Sizes {
  public:
    /// Narrow sizes: a page of 4 to 4,096 words, 2 to 256 frames, 1 to 64 slots and places. OutOfRange: one of them is.
    [[nodiscard]] static Result<Sizes> checked(Word page_size, Word frames, Word slots, Word drain_places) {
        return within({4096, 256, 64, 64}, {page_size, frames, slots, drain_places});
    }
    /// Sizes for an engine: a page of 4 to 2^20 words, 2 to 2^16 frames, 1 to 1,024 slots, 1 to 4,096 places.
    /// OutOfRange: one of them is.
    [[nodiscard]] static Result<Sizes> wide(Word page_size, Word frames, Word slots, Word drain_places) {
        return of({page_size, frames, slots, drain_places});
    }
    /// The same by names: wide sizes.
    [[nodiscard]] static Result<Sizes> of(RawSizes raw) {
        return within({Word(1) << 20, Word(1) << 16, 1024, 4096}, raw);
    }

#if defined(HL_EXCEPTIONS)
    /// As checked(), whose fault it throws.
    Sizes(Word page_size, Word frames, Word slots, Word drain_places)
        : Sizes(checked(page_size, frames, slots, drain_places).value()) {}
#endif

    constexpr Word page_size() const noexcept { return page_size_; }
    constexpr Word frames() const noexcept { return frames_; }
    constexpr Word slots() const noexcept { return slots_; }
    constexpr Word drain_places() const noexcept { return drain_places_; }
    /// The place of an address in a row of page_size() * frames() words.
    constexpr Word cell_of(Word address) const noexcept {
        // A page's size is a power of two, so one division is enough.
        return (address >> page_bits_) % frames_ * page_size_ + (address & (page_size_ - 1));
    }

  private:
    struct Exact {};
    [[nodiscard]] static Result<Sizes> within(RawSizes most, RawSizes raw) {
        bool is_power = raw.page_size != 0 && (raw.page_size & (raw.page_size - 1)) == 0;
        if (!is_power || raw.page_size < 4 || raw.page_size > most.page_size || raw.frames < 2 ||
            raw.frames > most.frames || raw.slots < 1 || raw.slots > most.slots || raw.drain_places < 1 ||
            raw.drain_places > most.drain_places)
            return Refused(Refusal{Fault::OutOfRange});
        return Sizes(Exact{}, raw);
    }
    constexpr Sizes(Exact, RawSizes raw) noexcept
        : page_size_(raw.page_size), frames_(raw.frames), slots_(raw.slots), drain_places_(raw.drain_places) {
        while (raw.page_size >> page_bits_ > 1)
            page_bits_++;
    }

    Word page_size_, frames_, slots_, drain_places_;
    unsigned page_bits_ = 0;
};

} // namespace HL_FORM
} // namespace hl

#endif
