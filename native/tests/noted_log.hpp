// A log whose calls are noted. Each call under the log's lock is made and noted under one lock of the test, so the journal
// has them in the log's own order. What a pass does without the lock is noted before its next call under it.
#ifndef NOTED_LOG_HPP
#define NOTED_LOG_HPP

#include "hl_log.hpp"

#include <optional>
#include <vector>

namespace noted {

using hl::Word;

enum class Call {
    Acquire,
    Refresh,
    Release,
    Bump,
    Settle,
    Close,
    Bare,
    Take,
    Done,
    Raise,
    Shift,
    Allocate,
    Look,
    Store,
    Load,
    FlushTake,
    FlushDone,
    CleanTake,
    CleanDone,
};

/// A call, and its numbers in the order of docs/FORMATS.md; of FlushDone b is 1 where the flush went well.
struct Step {
    Call call;
    Word a = 0;
    Word b = 0;
    Word c = 0;
};

/// A call and its answer, as hl.h tells answers; a load tells its word.
struct Entry {
    Step step;
    hl_outcome told;
};

inline hl_outcome whole(hl_brief told) { return {told.number, told.a, 0, 0, 0}; }

/// Makes a step of a core. A store and a load are judged alone.
inline hl_outcome make(hl_core *core, const Step &step) {
    switch (step.call) {
    case Call::Acquire: return hl_acquire(core, step.a);
    case Call::Refresh: return hl_refresh(core, step.a);
    case Call::Release: return whole(hl_release(core, step.a));
    case Call::Bump: return whole(hl_bump(core, step.a));
    case Call::Settle: return whole(hl_settle(core));
    case Call::Close: return whole(hl_close(core));
    case Call::Bare: return whole(hl_bare(core));
    case Call::Take: return hl_take(core);
    case Call::Done: return hl_done(core, step.a);
    case Call::Raise: return whole(hl_raise(core, step.a));
    case Call::Shift: return whole(hl_shift(core, step.a));
    case Call::Allocate: return whole(hl_allocate(core, step.a, step.b));
    case Call::Look: return hl_look(core, step.a, step.b, step.c);
    case Call::Store: return whole(hl_write(core, step.a, step.b, step.c));
    case Call::Load: return whole(hl_read(core, step.a, step.b));
    case Call::FlushTake: return whole(hl_flush_take(core));
    case Call::FlushDone: return whole(hl_flush_done(core, step.a, step.b == 1));
    case Call::CleanTake: return whole(hl_clean_take(core));
    case Call::CleanDone: return whole(hl_clean_done(core, step.a));
    }
    return {HL_OUT_OF_RANGE, 0, 0, 0, 0};
}

inline hl_outcome refused(const hl::Refusal &it) { return {static_cast<Word>(it.fault), it.first, it.second, 0, 0}; }

/// An answer as hl.h tells it, of a value by a function of it.
template <class T, class Make> hl_outcome told_of(const hl::Result<T> &told, Make make) {
    return told.has_value() ? make(*told) : refused(told.error());
}
inline hl_outcome told_of(const hl::Result<void> &told) {
    return told.has_value() ? hl_outcome{} : refused(told.error());
}
inline hl_outcome one(Word value) { return {0, value, 0, 0, 0}; }
inline hl_outcome seen(Word epoch, const hl::View &view) { return {0, epoch, view.read_only, view.head, view.tail}; }

class Log;

class Pass {
  public:
    Pass(Log &log, hl::Pass pass) : log_(&log), pass_(std::move(pass)) {}
    Pass(Pass &&other) noexcept
        : log_(other.log_), pass_(std::exchange(other.pass_, std::nullopt)), touches_(std::move(other.touches_)) {}
    Pass &operator=(Pass &&other) noexcept {
        std::swap(log_, other.log_);
        std::swap(pass_, other.pass_);
        std::swap(touches_, other.touches_);
        return *this;
    }
    ~Pass();

    hl::View view() const { return pass_->view(); }
    hl::Result<hl::Entered> refresh();
    hl::Result<Word> allocate(Word words);

    hl::View look() {
        hl::View before = view(), now = pass_->look();
        if (now != before) touches_.push_back({{Call::Look, pass_->slot(), now.read_only, now.head}, seen(0, now)});
        return now;
    }
    hl::Result<void> store(Word address, Word word) {
        auto told = pass_->store(address, word);
        touches_.push_back({{Call::Store, pass_->slot(), address, word}, told_of(told)});
        return told;
    }
    hl::Result<Word> load(Word address) {
        auto told = pass_->load(address);
        touches_.push_back({{Call::Load, pass_->slot(), address}, told_of(told, one)});
        return told;
    }

  private:
    Log *log_;
    std::optional<hl::Pass> pass_;
    std::vector<Entry> touches_;
};

class Flush {
  public:
    Flush(Log &log, hl::Flush page) : log_(&log), page_(std::move(page)) {}
    Flush(Flush &&other) noexcept : log_(other.log_), page_(std::exchange(other.page_, std::nullopt)) {}
    ~Flush();
    hl::Result<void> copy(Word *words, std::size_t count) { return page_->copy(words, count); }
    void done();

  private:
    Log *log_;
    std::optional<hl::Flush> page_;
};

class Clean {
  public:
    Clean(Log &log, hl::Clean page) : log_(&log), page_(std::move(page)) {}
    Clean(Clean &&other) noexcept : log_(other.log_), page_(std::exchange(other.page_, std::nullopt)) {}
    ~Clean();

  private:
    Log *log_;
    std::optional<hl::Clean> page_;
};

class Log {
  public:
    explicit Log(hl::Sizes sizes) : log_(hl::Log::open(sizes).value()) {}

    hl::Sizes sizes() const { return log_.sizes(); }
    hl::Offsets offsets() const { return log_.offsets(); }
    hl::Snapshot snapshot() const { return log_.snapshot(); }

    std::optional<Pass> acquire(Word slot) {
        std::lock_guard<std::mutex> lock(mutex_);
        auto told = log_.acquire(slot);
        // A slot is protected at the current epoch, which an acquire leaves as it is.
        Word epoch = log_.snapshot().epoch;
        note({Call::Acquire, slot}, told_of(told, [epoch](const hl::Pass &it) { return seen(epoch, it.view()); }));
        if (!told) return std::nullopt;
        return Pass(*this, *std::move(told));
    }

    void bump(Word tag) { make({Call::Bump, tag}, [=](hl::Log &log) { return told_of(log.bump(tag), one); }); }
    void settle() { make({Call::Settle}, [](hl::Log &log) { return told_of(log.settle(), one); }); }
    void close() { make({Call::Close}, [](hl::Log &log) { return told_of(log.close(), one); }); }
    void bare() { make({Call::Bare}, [](hl::Log &log) { return told_of(log.bare(), one); }); }
    void raise(Word to) { make({Call::Raise, to}, [=](hl::Log &log) { return told_of(log.raise(to), one); }); }
    void shift(Word to) { make({Call::Shift, to}, [=](hl::Log &log) { return told_of(log.shift(to), one); }); }
    void done(Word ticket) {
        make({Call::Done, ticket}, [=](hl::Log &log) {
            return told_of(log.done(ticket), [](const hl::Done &it) {
                return hl_outcome{0, it.value, static_cast<Word>(it.kind), 0, 0};
            });
        });
    }
    /// The ticket that was taken.
    std::optional<Word> take() {
        hl_outcome told = make({Call::Take}, [](hl::Log &log) {
            return told_of(log.take(), [](const hl::Action &it) {
                return hl_outcome{0, it.ticket, it.tag.has_value(), it.tag.value_or(0), 0};
            });
        });
        return told.number == 0 ? std::optional<Word>(told.a) : std::nullopt;
    }
    std::optional<Flush> flush_take() {
        std::lock_guard<std::mutex> lock(mutex_);
        auto told = log_.flush_take();
        note({Call::FlushTake}, told_of(told, [](const hl::Flush &it) { return one(it.page()); }));
        if (!told) return std::nullopt;
        return Flush(*this, *std::move(told));
    }
    std::optional<Clean> clean_take() {
        std::lock_guard<std::mutex> lock(mutex_);
        auto told = log_.clean_take();
        note({Call::CleanTake}, told_of(told, [](const hl::Clean &it) { return one(it.page()); }));
        if (!told) return std::nullopt;
        return Clean(*this, *std::move(told));
    }

    /// Makes a call under the test's lock, and notes it behind what a pass did without the lock.
    template <class Make> hl_outcome make(const Step &step, Make make, std::vector<Entry> *touches = nullptr) {
        std::lock_guard<std::mutex> lock(mutex_);
        if (touches) {
            journal_.insert(journal_.end(), touches->begin(), touches->end());
            touches->clear();
        }
        hl_outcome told = make(log_);
        note(step, told);
        return told;
    }

    std::vector<Entry> take_journal() {
        std::lock_guard<std::mutex> lock(mutex_);
        return std::exchange(journal_, {});
    }

  private:
    void note(const Step &step, const hl_outcome &told) { journal_.push_back({step, told}); }

    hl::Log log_;
    std::mutex mutex_;
    std::vector<Entry> journal_;
};

inline Pass::~Pass() {
    if (!pass_) return;
    Word slot = pass_->slot();
    log_->make(
        {Call::Release, slot},
        [this](hl::Log &) {
            pass_.reset();
            return hl_outcome{};
        },
        &touches_);
}

inline hl::Result<hl::Entered> Pass::refresh() {
    std::optional<hl::Result<hl::Entered>> now;
    log_->make(
        {Call::Refresh, pass_->slot()},
        [&](hl::Log &) {
            now = pass_->refresh();
            return told_of(*now, [](const hl::Entered &it) { return seen(it.epoch, it.view); });
        },
        &touches_);
    return *now;
}

inline hl::Result<Word> Pass::allocate(Word words) {
    std::optional<hl::Result<Word>> address;
    log_->make(
        {Call::Allocate, pass_->slot(), words},
        [&](hl::Log &) {
            address = pass_->allocate(words);
            return told_of(*address, one);
        },
        &touches_);
    return *address;
}

inline void Flush::done() {
    log_->make({Call::FlushDone, page_->page(), 1}, [this](hl::Log &) { return told_of(page_->done(), one); });
    page_.reset();
}

inline Flush::~Flush() {
    if (!page_) return;
    log_->make({Call::FlushDone, page_->page(), 0}, [this](hl::Log &log) {
        page_.reset();
        return one(log.offsets().flushed);
    });
}

inline Clean::~Clean() {
    if (!page_) return;
    log_->make({Call::CleanDone, page_->page()}, [this](hl::Log &) { return told_of(page_->sweep(), one); });
}

} // namespace noted

#endif
