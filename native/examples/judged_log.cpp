// An epoch table and a log of one's own, in plain C++, whose trace ./hl judge holds against the definitions. Four
// threads make steps, and a lock is held round each step and its line. With --mistake the table calls an epoch safe that
// a protected slot is still at; the judge names the first reply that shows it. Usage: judged_log [--mistake] > TRACE
#include <algorithm>
#include <array>
#include <cstdint>
#include <cstdio>
#include <cstdlib>
#include <cstring>
#include <deque>
#include <map>
#include <mutex>
#include <string>
#include <thread>
#include <vector>

using Word = std::uint64_t;
using Text = std::string;

static const Word PAGE_SIZE = 64, FRAMES = 64, SLOTS = 4, ACTIONS = 8, ROUNDS = 200;

static Text with(const char *word, Word number) {
    return Text(word) + " " + std::to_string(number);
}

/// What a slot sees of the offsets.
struct View {
    Word read_only = 0, head = 0, tail = 0;
};

/// A slot: at epoch 0 it isn't protected.
struct Slot {
    Word epoch = 0;
    View view;
};

/// An action that waits for its ticket, or is taken: a job with a tag, or a settle with its stored offset.
struct Action {
    Word ticket, number;
    bool settles;
};

/// The engine that is judged. Each step returns its reply as docs/FORMATS.md has it.
class Engine {
  public:
    explicit Engine(bool mistake) : mistake(mistake), words(PAGE_SIZE * FRAMES) {}

    Text acquire(Word t) {
        return slots[t].epoch != 0 ? "fault 2 Occupied" : protect(slots[t]);
    }

    Text refresh(Word t) {
        return slots[t].epoch == 0 ? "fault 3 NotProtected" : protect(slots[t]);
    }

    Text release(Word t) {
        if (slots[t].epoch == 0) return "fault 3 NotProtected";
        slots[t].epoch = 0;
        return "left";
    }

    Text bump(Word tag) { return store(tag, false); }

    Text settle() { return store(read_only, true); }

    Text take() {
        if (pending.empty()) return "fault 7 Empty";
        Action front = pending.front();
        if (front.ticket > safe())
            return with("fault 8 NotReady front", front.ticket) + with(" safe", safe());
        pending.pop_front();
        taken.emplace(front.ticket, front);
        return with("taken", front.ticket);
    }

    Text done(Word ticket) {
        auto place = taken.find(ticket);
        if (place == taken.end()) return "fault 9 NotTaken";
        Action action = place->second;
        taken.erase(place);
        if (!action.settles) return with("answer", action.number + ticket);
        safe_read_only = std::max(safe_read_only, action.number);
        return with("safe_read_only", safe_read_only);
    }

    Text raise(Word offset) {
        if (offset <= read_only) return "fault 10 NotAbove";
        if (offset > tail) return "fault 11 AboveTail";
        read_only = offset;
        return with("read_only", offset);
    }

    Text allocate(Word t, Word n) {
        if (slots[t].epoch == 0) return "fault 3 NotProtected";
        if (n == 0 || n > PAGE_SIZE) return "fault 14 Size";
        Word page = tail / PAGE_SIZE;
        // A record that doesn't end on the tail's page begins the next.
        Word start = tail % PAGE_SIZE + n <= PAGE_SIZE ? tail : (page + 1) * PAGE_SIZE;
        if (start / PAGE_SIZE >= FRAMES) return with("fault 15 Busy page", start / PAGE_SIZE);
        tail = start + n;
        slots[t].view.tail = tail;
        return with("at", start);
    }

    Text write(Word t, Word address, Word value) {
        const View &view = slots[t].view;
        if (slots[t].epoch == 0) return "fault 3 NotProtected";
        if (address < view.read_only) return with("fault 17 Below read_only", view.read_only);
        if (address >= view.tail) return with("fault 18 Beyond tail", view.tail);
        words[address] = value;
        return "written";
    }

    Text read(Word t, Word address) const {
        const View &view = slots[t].view;
        if (slots[t].epoch == 0) return "fault 3 NotProtected";
        if (address < view.head) return with("fault 19 Evicted head", view.head);
        if (address >= view.tail) return with("fault 18 Beyond tail", view.tail);
        return with("value", words[address]);
    }

  private:
    Text protect(Slot &slot) const {
        slot.epoch = current;
        slot.view = View{read_only, 0, tail};
        return with("epoch", current) + with(" view", read_only) + with(" 0", tail);
    }

    /// Ends an epoch and stores an action with its number.
    Text store(Word number, bool settles) {
        if (pending.size() + taken.size() >= ACTIONS) return "fault 5 DrainFull";
        pending.push_back(Action{current, number, settles});
        return with("ticket", current++);
    }

    /// The greatest epoch that no protected slot is at or below.
    Word safe() const {
        Word least = current;
        for (const Slot &slot : slots)
            if (slot.epoch != 0) least = std::min(least, slot.epoch);
        return mistake && least < current ? least : least - 1;
    }

    bool mistake;
    Word current = 1, tail = 0, read_only = 0, safe_read_only = 0;
    std::array<Slot, SLOTS> slots;
    std::deque<Action> pending;
    std::map<Word, Action> taken;
    std::vector<Word> words;
};

/// An engine whose steps are told on standard output.
class Traced {
  public:
    explicit Traced(bool mistake) : engine(mistake) {
        std::printf("config %d %d %d %d -> opened\n", int(PAGE_SIZE), int(FRAMES), int(SLOTS), int(ACTIONS));
    }

    /// Makes a step, and writes its line and its reply before anybody makes the next.
    template <typename Step> Text tell(const Text &line, Step step) {
        std::lock_guard<std::mutex> held(lock);
        Text reply = step(engine);
        std::printf("%s -> %s\n", line.c_str(), reply.c_str());
        return reply;
    }

  private:
    Engine engine;
    std::mutex lock;
};

/// The number behind a word of a reply, or -1 where the reply begins with another.
static long long number_of(const Text &reply, const char *word) {
    std::size_t length = std::strlen(word);
    return reply.compare(0, length, word) == 0 ? std::atoll(reply.c_str() + length) : -1;
}

/// Takes the oldest action, and answers it done if it was ready.
static void run_one(Traced &log) {
    long long ticket = number_of(log.tell("take", [](Engine &e) { return e.take(); }), "taken ");
    if (ticket >= 0) log.tell(with("done", Word(ticket)), [=](Engine &e) { return e.done(Word(ticket)); });
}

static void append(Traced &log, Word t, Word n, Word value) {
    Text line = with("alloc", t) + with("", n);
    long long at = number_of(log.tell(line, [=](Engine &e) { return e.allocate(t, n); }), "at ");
    if (at < 0) return;
    Word address = Word(at);
    Text place = with("", t) + with("", address);
    log.tell("write" + place + with("", value), [=](Engine &e) { return e.write(t, address, value); });
    log.tell("read" + place, [=](Engine &e) { return e.read(t, address); });
    if (n == 4) log.tell(with("raise", address), [=](Engine &e) { return e.raise(address); });
}

/// What a thread does with its slot.
static void work(Traced &log, Word t) {
    for (Word round = 0; round < ROUNDS; round++) {
        log.tell(with("acquire", t), [=](Engine &e) { return e.acquire(t); });
        append(log, t, 1 + round % 4, t * ROUNDS + round);
        // Each tag has one job, so it is bumped once.
        Word tag = t * ROUNDS + round;
        if (round % 8 == 2) log.tell(with("bump", tag), [=](Engine &e) { return e.bump(tag); });
        if (round % 8 == 6) log.tell("settle", [](Engine &e) { return e.settle(); });
        run_one(log);
        log.tell(with("refresh", t), [=](Engine &e) { return e.refresh(t); });
        run_one(log);
        log.tell(with("release", t), [=](Engine &e) { return e.release(t); });
    }
}

int main(int count, char **words) {
    Traced log(count > 1 && std::strcmp(words[1], "--mistake") == 0);
    // One slot alone: the action has to wait until it has moved on.
    log.tell("acquire 0", [](Engine &e) { return e.acquire(0); });
    log.tell("bump 999", [](Engine &e) { return e.bump(999); });
    run_one(log);
    log.tell("release 0", [](Engine &e) { return e.release(0); });
    run_one(log);
    std::vector<std::thread> threads;
    for (Word t = 0; t < SLOTS; t++)
        threads.emplace_back([&log, t] { work(log, t); });
    for (std::thread &thread : threads)
        thread.join();
    return std::fflush(stdout) == 0 ? 0 : 1;
}
