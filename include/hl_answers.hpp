// What calls of hl.hpp are answered: a value, or the fault that refused the call. An answer has the calls of
// std::expected that are used most. It is one type in every form of C++, so that objects of C++17 and of C++23 may be
// linked into one program. Objects that are built with exceptions and without have two, by their names: those that hand
// one to the other don't link.
#ifndef HL_ANSWERS_HPP
#define HL_ANSWERS_HPP

#if __cplusplus < 201703L && (!defined(_MSVC_LANG) || _MSVC_LANG < 201703L)
#error "hl for C++ wants C++17 or later; hl.h is for C and for earlier forms of C++"
#endif

#include "hl.h"

#include <cstdint>
#include <exception>
#include <optional>
#include <type_traits>
#include <utility>
#include <variant>

#if defined(__cpp_exceptions)
#define HL_FORM throwing
#else
#define HL_FORM ending
#endif

namespace hl {
inline namespace HL_FORM {

/// A word of the log, and every number that a call takes or tells.
using Word = std::uint64_t;

/// Why a call can be refused, by the names of docs/RULES.md; OutOfRange and NoCore are codes of the library. Stranger is
/// told by hl_log.h alone, Device by flush() of a pass.
enum class Fault : Word {
    NoSlot = HL_NO_SLOT,
    Occupied = HL_OCCUPIED,
    NotProtected = HL_NOT_PROTECTED,
    Stale = HL_STALE,
    DrainFull = HL_DRAIN_FULL,
    EpochsSpent = HL_EPOCHS_SPENT,
    Empty = HL_EMPTY,
    NotReady = HL_NOT_READY,
    NotTaken = HL_NOT_TAKEN,
    NotAbove = HL_NOT_ABOVE,
    AboveTail = HL_ABOVE_TAIL,
    NotPage = HL_NOT_PAGE,
    AboveFlushed = HL_ABOVE_FLUSHED,
    Size = HL_SIZE,
    Busy = HL_BUSY,
    SpaceSpent = HL_SPACE_SPENT,
    Below = HL_BELOW,
    Beyond = HL_BEYOND,
    Evicted = HL_EVICTED,
    NoneSealed = HL_NONE_SEALED,
    NotInFlight = HL_NOT_IN_FLIGHT,
    NoneClosed = HL_NONE_CLOSED,
    NotCleaning = HL_NOT_CLEANING,
    Stranger = HL_STRANGER,
    Device = HL_DEVICE,
    OutOfMemory = HL_OUT_OF_MEMORY,
    WindowFull = HL_WINDOW_FULL,
    OutOfRange = HL_OUT_OF_RANGE,
    NoCore = HL_NO_CORE,
};

/// A fault's name, as docs/RULES.md has it.
constexpr const char *name(Fault fault) noexcept {
    switch (fault) {
    case Fault::NoSlot: return "NoSlot";
    case Fault::Occupied: return "Occupied";
    case Fault::NotProtected: return "NotProtected";
    case Fault::Stale: return "Stale";
    case Fault::DrainFull: return "DrainFull";
    case Fault::EpochsSpent: return "EpochsSpent";
    case Fault::Empty: return "Empty";
    case Fault::NotReady: return "NotReady";
    case Fault::NotTaken: return "NotTaken";
    case Fault::NotAbove: return "NotAbove";
    case Fault::AboveTail: return "AboveTail";
    case Fault::NotPage: return "NotPage";
    case Fault::AboveFlushed: return "AboveFlushed";
    case Fault::Size: return "Size";
    case Fault::Busy: return "Busy";
    case Fault::SpaceSpent: return "SpaceSpent";
    case Fault::Below: return "Below";
    case Fault::Beyond: return "Beyond";
    case Fault::Evicted: return "Evicted";
    case Fault::NoneSealed: return "NoneSealed";
    case Fault::NotInFlight: return "NotInFlight";
    case Fault::NoneClosed: return "NoneClosed";
    case Fault::NotCleaning: return "NotCleaning";
    case Fault::Stranger: return "Stranger";
    case Fault::Device: return "Device";
    case Fault::OutOfMemory: return "OutOfMemory";
    case Fault::WindowFull: return "WindowFull";
    case Fault::OutOfRange: return "OutOfRange";
    case Fault::NoCore: return "NoCore";
    }
    return "unknown";
}

/// A refusal: the call changed nothing.
struct Refusal {
    Fault fault;
    /// What the fault carries: of NotReady the front's ticket and the safe epoch, of Busy the page, of Below, Beyond
    /// and Evicted the view's read-only offset, tail and head; else 0.
    Word first = 0;
    Word second = 0;

    constexpr const char *name() const noexcept { return hl::name(fault); }
    constexpr bool operator==(Fault other) const noexcept { return fault == other; }
    constexpr bool operator!=(Fault other) const noexcept { return fault != other; }
    constexpr bool operator==(const Refusal &other) const noexcept {
        return fault == other.fault && first == other.first && second == other.second;
    }
    constexpr bool operator!=(const Refusal &other) const noexcept { return !(*this == other); }
};

// ---- Answers ----

/// What value() of a refused answer throws.
class BadAccess : public std::exception {
  public:
    explicit BadAccess(Refusal refusal) noexcept : refusal_(refusal) {}
    const char *what() const noexcept override { return refusal_.name(); }
    const Refusal &error() const noexcept { return refusal_; }

  private:
    Refusal refusal_;
};

/// Makes a refused answer.
class Refused {
  public:
    constexpr explicit Refused(Refusal refusal) noexcept : refusal_(refusal) {}
    constexpr const Refusal &error() const noexcept { return refusal_; }

  private:
    Refusal refusal_;
};

/// What value() of a refused answer does.
[[noreturn]] inline void throw_or_end([[maybe_unused]] const Refusal &refusal) {
#if defined(__cpp_exceptions)
    throw BadAccess(refusal);
#else
    std::terminate();
#endif
}

/// A value, or a refusal, with the calls of std::expected that are used most. value() throws BadAccess, whose what() is
/// the fault's name, or ends the program where exceptions are off; `*` and `->` want an answer that has a value. Of an
/// answer that goes away at once both give the value itself, where std::expected gives a reference into it.
template <class T> class [[nodiscard]] Result {
  public:
    using value_type = T;
    using error_type = Refusal;

    Result(T value) : held_(std::in_place_index<0>, std::move(value)) {}
    Result(Refused refused) : held_(std::in_place_index<1>, refused.error()) {}

    bool has_value() const noexcept { return held_.index() == 0; }
    explicit operator bool() const noexcept { return has_value(); }
    T &operator*() &noexcept { return *std::get_if<0>(&held_); }
    const T &operator*() const &noexcept { return *std::get_if<0>(&held_); }
    T operator*() &&noexcept(std::is_nothrow_move_constructible<T>::value) {
        return std::move(*std::get_if<0>(&held_));
    }
    T *operator->() noexcept { return std::get_if<0>(&held_); }
    const T *operator->() const noexcept { return std::get_if<0>(&held_); }
    const Refusal &error() const noexcept { return *std::get_if<1>(&held_); }
    T &value() & { return check(), **this; }
    const T &value() const & { return check(), **this; }
    T value() && { return check(), *std::move(*this); }
    T value_or(T other) const & { return has_value() ? **this : std::move(other); }
    /// What a function of the value answers, which is a Result; or the refusal.
    template <class Call> auto and_then(Call call) && -> decltype(call(std::declval<T>())) {
        if (!has_value()) return Refused(error());
        return call(*std::move(*this));
    }
    /// What a function makes of the value; or the refusal.
    template <class Call> auto transform(Call call) && -> Result<decltype(call(std::declval<T>()))> {
        if (!has_value()) return Refused(error());
        return call(*std::move(*this));
    }

  private:
    void check() const {
        if (!has_value()) throw_or_end(error());
    }

    std::variant<T, Refusal> held_;
};

/// An answer without a value.
template <> class [[nodiscard]] Result<void> {
  public:
    using value_type = void;
    using error_type = Refusal;

    Result() = default;
    Result(Refused refused) : refusal_(refused.error()) {}

    bool has_value() const noexcept { return !refusal_; }
    explicit operator bool() const noexcept { return has_value(); }
    const Refusal &error() const noexcept { return *refusal_; }
    void value() const {
        if (!has_value()) throw_or_end(error());
    }

  private:
    std::optional<Refusal> refusal_;
};

} // namespace HL_FORM
} // namespace hl

#endif
