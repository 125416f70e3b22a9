// A journal as the lines of a script and of its text, as docs/FORMATS.md has them.
#ifndef SCRIPT_HPP
#define SCRIPT_HPP

#include "noted_log.hpp"

#include <initializer_list>
#include <string>

/// Words and numbers with a space between two.
inline std::string joined(std::string words, std::initializer_list<hl::Word> numbers) {
    for (hl::Word number : numbers)
        words += " " + std::to_string(number);
    return words;
}

inline std::string line_of(const noted::Step &step) {
    switch (step.call) {
    case noted::Call::Acquire: return joined("acquire", {step.a});
    case noted::Call::Refresh: return joined("refresh", {step.a});
    case noted::Call::Release: return joined("release", {step.a});
    case noted::Call::Bump: return joined("bump", {step.a});
    case noted::Call::Settle: return "settle";
    case noted::Call::Close: return "close";
    case noted::Call::Bare: return "bare";
    case noted::Call::Take: return "take";
    case noted::Call::Done: return joined("done", {step.a});
    case noted::Call::Raise: return joined("raise", {step.a});
    case noted::Call::Shift: return joined("shift", {step.a});
    case noted::Call::Allocate: return joined("alloc", {step.a, step.b});
    case noted::Call::Look: return joined("look", {step.a, step.b, step.c});
    case noted::Call::Store: return joined("write", {step.a, step.b, step.c});
    case noted::Call::Load: return joined("read", {step.a, step.b});
    case noted::Call::FlushTake: return "flush take";
    case noted::Call::FlushDone: return joined("flush done", {step.a}) + (step.b == 1 ? " ok" : " failed");
    case noted::Call::CleanTake: return "clean take";
    case noted::Call::CleanDone: return joined("clean done", {step.a});
    }
    return "";
}

inline std::string fault_of(const hl_outcome &told) {
    auto fault = static_cast<hl::Fault>(told.number);
    std::string text = joined("fault", {told.number}) + " " + hl::name(fault);
    switch (fault) {
    case hl::Fault::NotReady: return joined(joined(text + " front", {told.a}) + " safe", {told.b});
    case hl::Fault::Busy: return joined(text + " page", {told.a});
    case hl::Fault::Below: return joined(text + " read_only", {told.a});
    case hl::Fault::Beyond: return joined(text + " tail", {told.a});
    case hl::Fault::Evicted: return joined(text + " head", {told.a});
    default: return text;
    }
}

inline std::string answer_of(const noted::Entry &entry) {
    const hl_outcome &told = entry.told;
    if (told.number != 0) return fault_of(told);
    switch (entry.step.call) {
    case noted::Call::Acquire:
    case noted::Call::Refresh: return joined(joined("epoch", {told.a}) + " view", {told.b, told.c, told.d});
    case noted::Call::Release: return "left";
    case noted::Call::Bump:
    case noted::Call::Settle:
    case noted::Call::Close: return joined("ticket", {told.a});
    case noted::Call::Bare: return joined("bumped", {told.a});
    case noted::Call::Take: return joined("taken", {told.a});
    case noted::Call::Done:
        // The program's jobs answer their tag and their ticket.
        return told.b == HL_JOB       ? joined("answer", {told.a + entry.step.a})
               : told.b == HL_SETTLES ? joined("safe_read_only", {told.a})
                                      : joined("closed", {told.a});
    case noted::Call::Raise: return joined("read_only", {told.a});
    case noted::Call::Shift: return joined("head", {told.a});
    case noted::Call::Allocate: return joined("at", {told.a});
    case noted::Call::Look: return joined("view", {told.b, told.c, told.d});
    case noted::Call::Store: return "written";
    case noted::Call::Load: return joined("value", {told.a});
    case noted::Call::FlushTake:
    case noted::Call::CleanTake: return joined("page", {told.a});
    case noted::Call::FlushDone: return joined("flushed", {told.a});
    case noted::Call::CleanDone: return joined("freed", {told.a});
    }
    return "";
}

#endif
