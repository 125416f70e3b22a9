// A log beside the proved core: each call's answer, what loads find, and all quantities, over random steps of one
// thread and of four. Words: how many steps each makes, and a folder for the journals as scripts with their texts.
#include "script.hpp"

#include <algorithm>
#include <atomic>
#include <cstdio>
#include <cstdlib>
#include <fstream>
#include <thread>
#include <unordered_map>

using hl::Word;

// The steps of a round, after which a log is opened anew.
static const int ROUND = 20000;

/// Marsaglia's xorshift, 64 bits.
class Random {
  public:
    explicit Random(Word seed) : state_(seed * 0x9E3779B97F4A7C15 | 1) {}
    Word next() {
        state_ ^= state_ << 13;
        state_ ^= state_ >> 7;
        state_ ^= state_ << 17;
        return state_ * 0x2545F4914F6CDD1D >> 7;
    }
    Word below(Word bound) { return next() % std::max(bound, Word{1}); }
    Word near(Word number) { return std::max(number + below(5), Word{2}) - 2; }
    template <class T> size_t place_in(const std::vector<T> &row) { return below(row.size()); }

  private:
    Word state_;
};

static hl::Sizes sizes_of(Word round) {
    static const Word rows[][4] = {{4, 2, 4, 1},  {4, 3, 5, 64},  {8, 4, 4, 4},
                                   {16, 5, 6, 8}, {64, 7, 64, 3}, {32, 33, 17, 9}};
    const Word *row = rows[round % 6];
    return hl::Sizes::checked(row[0], row[1], row[2], row[3]).value();
}

/// What a flusher has in its hands.
struct Hands {
    std::vector<Word> tickets;
    std::vector<noted::Flush> flushes;
    std::vector<noted::Clean> cleans;
    Word tags = 0;
};

/// Makes a step by which the pages go on, where one is due.
static bool go_on(noted::Log &log, Hands &hands) {
    hl::Offsets six = log.offsets();
    Word page_size = log.sizes().page_size(), page_start = six.tail / page_size * page_size;
    bool waits = log.snapshot().pending > 0;
    if (!hands.tickets.empty()) {
        log.done(hands.tickets.back());
        hands.tickets.pop_back();
    } else if (six.read_only < page_start) {
        log.raise(page_start);
    } else if (six.safe_read_only < six.read_only && !waits) {
        log.settle();
    } else if (six.head < six.flushed) {
        log.shift(six.flushed);
    } else if (six.closed < six.head && !waits) {
        log.close();
    } else {
        return false;
    }
    return true;
}

static void end_flush(noted::Log &log, Hands &hands, Random &random) {
    if (hands.flushes.empty()) return;
    noted::Flush page = std::move(hands.flushes.back());
    hands.flushes.pop_back();
    std::vector<Word> words(log.sizes().page_size());
    (void)page.copy(words.data(), words.size());
    if (random.below(5) != 0) page.done();
}

/// A random step of the actions, the offsets or the pages. Refusals are steps as others.
static void serve(noted::Log &log, Hands &hands, Random &random) {
    if (random.below(2) == 0 && go_on(log, hands)) return;
    hl::Offsets six = log.offsets();
    switch (random.below(20)) {
    case 0:
        // The program has 1,000 jobs.
        if (hands.tags < 1000) log.bump(hands.tags++);
        break;
    case 1: log.settle(); break;
    case 2: log.close(); break;
    case 3: log.bare(); break;
    case 4: log.done(random.below(9)); break;
    case 5: log.raise(random.near(six.tail)); break;
    case 6: log.shift(random.near(six.head)); break;
    case 7:
    case 8:
    case 9:
        if (auto ticket = log.take()) hands.tickets.push_back(*ticket);
        break;
    case 10:
    case 11:
    case 12:
        if (auto page = log.flush_take()) hands.flushes.push_back(*std::move(page));
        break;
    case 13:
    case 14:
    case 15: end_flush(log, hands, random); break;
    case 16:
    case 17:
        if (auto page = log.clean_take()) hands.cleans.push_back(*std::move(page));
        break;
    default:
        // It is swept where it goes.
        if (!hands.cleans.empty()) hands.cleans.pop_back();
    }
}

/// A pass with the addresses of its own records. All riders count how many words they stored and loaded, or were
/// refused.
struct Rider {
    noted::Pass pass;
    std::vector<Word> own;
    std::atomic<size_t> *words;
};

/// A random step of a pass; its words go to addresses of its own records, and above its tail.
static void ride(Rider &rider, Random &random, hl::Sizes sizes) {
    noted::Pass &pass = rider.pass;
    std::vector<Word> &own = rider.own;
    Word address = own.empty() || random.below(8) == 0 ? pass.view().tail + random.below(3) : own[random.place_in(own)];
    Word choice = random.below(10);
    *rider.words += choice == 4 || choice == 5 || choice > 6;
    switch (choice) {
    case 0:
    case 1:
    case 2: (void)pass.refresh(); break;
    case 3: {
        Word words = random.below(sizes.page_size() + 2);
        if (auto first = pass.allocate(words))
            for (Word i = 0; i < words; i++)
                own.push_back(*first + i);
        if (own.size() > 200) own.erase(own.begin(), own.end() - 200);
        break;
    }
    case 4:
    case 5: (void)pass.store(address, random.next()); break;
    case 6: (void)pass.look(); break;
    default: (void)pass.load(address);
    }
}

static bool same(const hl_outcome &x, const hl_outcome &y) {
    return x.number == y.number && x.a == y.a && x.b == y.b && x.c == y.c && x.d == y.d;
}

static bool same(const hl::Snapshot &x, const hl::Snapshot &y) {
    auto six = [](const hl::Offsets &it) {
        return joined("", {it.closed, it.head, it.flushed, it.safe_read_only, it.read_only, it.tail});
    };
    return x.epoch == y.epoch && x.safe == y.safe && x.protected_slots == y.protected_slots && x.pending == y.pending &&
           x.taken == y.taken && six(x.offsets) == six(y.offsets) && x.frames == y.frames;
}

/// Steps a fresh core, and words by address, through a journal: each answer is to be the journal's, and all quantities
/// at the end the log's.
static bool replays(hl::Sizes sizes, const std::vector<noted::Entry> &journal, const hl::Snapshot &last) {
    hl::Core core = hl::Core::open(sizes).value();
    std::unordered_map<Word, Word> words;
    for (const noted::Entry &entry : journal) {
        hl_outcome told = noted::make(core.handle(), entry.step);
        if (told.number == 0 && entry.step.call == noted::Call::Store) words[entry.step.b] = entry.step.c;
        if (told.number == 0 && entry.step.call == noted::Call::Load) told.a = words[entry.step.b];
        if (!same(told, entry.told)) {
            std::printf("%s: %s, and the core tells %s\n", line_of(entry.step).c_str(), answer_of(entry).c_str(),
                        answer_of({entry.step, told}).c_str());
            return false;
        }
    }
    if (same(core.snapshot().value(), last)) return true;
    std::printf("the quantities differ\n");
    return false;
}

static void write_script(const std::string &path, hl::Sizes sizes, const std::vector<noted::Entry> &journal) {
    std::ofstream script(path + ".script"), text(path + ".expected");
    script << joined("config", {sizes.page_size(), sizes.frames(), sizes.slots(), sizes.drain_places()}) << '\n';
    text << "opened\n";
    for (const noted::Entry &entry : journal) {
        script << line_of(entry.step) << '\n';
        text << answer_of(entry) << '\n';
    }
}

static void one_thread(noted::Log &log, Word round, std::atomic<size_t> &words) {
    Random random(round + 47);
    Hands hands;
    std::vector<Rider> riders;
    for (int made = 0; made < ROUND; made++) {
        Word choice = random.below(40);
        if (choice < 3) {
            if (auto pass = log.acquire(random.below(log.sizes().slots() + 1)))
                riders.push_back({*std::move(pass), {}, &words});
        } else if (choice == 3 && !riders.empty()) {
            std::swap(riders[random.place_in(riders)], riders.back());
            riders.pop_back();
        } else if (choice < 21) {
            serve(log, hands, random);
        } else if (!riders.empty()) {
            ride(riders[random.place_in(riders)], random, log.sizes());
        }
    }
}

static void four_threads(noted::Log &log, Word round, std::atomic<size_t> &words) {
    std::atomic<bool> riding{true};
    std::vector<std::thread> threads;
    for (Word slot = 0; slot < 4; slot++)
        threads.emplace_back([&log, &words, round, slot] {
            Random random(round * 4 + slot + 1);
            std::vector<Word> own;
            for (int turn = 0; turn < 20; turn++) {
                Rider rider{log.acquire(slot).value(), std::move(own), &words};
                for (int made = 0; made < ROUND / 160; made++)
                    ride(rider, random, log.sizes());
                own = std::move(rider.own);
            }
        });
    std::thread flusher([&log, &riding, round] {
        Random random(round + 1);
        Hands hands;
        while (riding)
            serve(log, hands, random);
    });
    for (std::thread &thread : threads)
        thread.join();
    riding = false;
    flusher.join();
}

/// Each pass moves on, and the oldest action is carried out.
static void refresh_and_serve(hl::Log &log, hl::Pass &writer, hl::Pass &reader) {
    writer.refresh().value();
    reader.refresh().value();
    log.done(log.take().value().ticket).value();
}

/// Words are changed in one step, and refused as a store is.
static bool are_changed_in_one_step() {
    hl::Log log = hl::Log::open(hl::Sizes::checked(4, 2, 1, 4).value()).value();
    hl::Pass pass = log.acquire(0).value();
    bool well = pass.fetch_add(0, 1).error() == hl::Fault::Beyond && pass.allocate(4).value() == 0;
    well = well && pass.fetch_add(3, 5).value() == 0 && pass.fetch_add(3, ~Word{0}).value() == 5;
    well = well && pass.load(3).value() == 4 && pass.compare_exchange(3, 5, 9).value() == 4;
    well = well && pass.load(3).value() == 4 && pass.compare_exchange(3, 4, 9).value() == 4 && pass.load(3).value() == 9;
    well = well && log.raise(4) && pass.look().read_only == 4 && pass.fetch_add(3, 1).error() == hl::Fault::Below;
    well = well && pass.compare_exchange(3, 9, 1).error() == hl::Fault::Below && pass.load(3).value() == 9;
    if (!well) std::printf("changes in one step\n");
    return well;
}

/// A slot that doesn't move on holds the oldest action up, and knows by itself that something is new.
static bool is_held_up() {
    hl::Log log = hl::Log::open(hl::Sizes::checked(4, 2, 3, 4).value()).value();
    hl::Pass first = log.acquire(0).value();
    bool well = log.holder(0).error() == hl::Fault::OutOfRange;
    {
        hl::Pass last = log.acquire(2).value();
        well = well && first.keeps_up() && last.keeps_up() && log.bump(7).value() == 1;
        well = well && !first.keeps_up() && !last.keeps_up();
        hl::Holder holder = log.holder(1).value();
        well = well && holder.slot == 2 && holder.epoch == 1 && holder.ticket == 1 && holder.count == 2;
        well = well && first.refresh() && first.keeps_up() && log.holder(0)->slot == 2 && !log.holder(1);
    }
    well = well && !log.holder(0) && log.take()->ticket == 1;
    if (!well) std::printf("who holds up\n");
    return well;
}

/// One page's way: what each thread sees of it, and what its copy and its next words are.
static bool is_the_way_of_a_page() {
    hl::Log log = hl::Log::open(hl::Sizes::checked(4, 2, 2, 4).value()).value();
    hl::Pass writer = log.acquire(0).value(), reader = log.acquire(1).value();
    bool well = writer.allocate(4).value() == 0 && writer.store(3, 7) && reader.load(3).error() == hl::Fault::Beyond;
    reader.refresh().value();
    well = well && reader.load(3).value() == 7;

    // The writer hasn't seen the raise, and then has.
    well = well && log.raise(4) && writer.store(3, 8) && writer.look().read_only == 4;
    well = well && writer.store(3, 9).error() == hl::Fault::Below && log.settle();
    refresh_and_serve(log, writer, reader);
    { auto given_back = log.flush_take().value(); }
    hl::Flush page = log.flush_take().value();
    Word words[4] = {1, 1, 1, 1};
    well = well && page.copy(words, 3).error() == hl::Fault::Size && words[0] == 1;
    well = well && page.copy(words, 4).has_value() && words[0] == 0 && words[2] == 0 && words[3] == 8 && page.done().value() == 4;

    // Nor the shift.
    well = well && log.shift(4) && writer.load(3).value() == 8 && writer.look().head == 4;
    well = well && writer.load(3).error() == hl::Fault::Evicted && log.close();
    refresh_and_serve(log, writer, reader);
    well = well && writer.allocate(4).value() == 4 && writer.allocate(4).error() == hl::Fault::Busy;
    well = well && log.clean_take().value().sweep().value() == 0;
    well = well && writer.allocate(4).value() == 8 && writer.load(11).value() == 0;
    if (!well) std::printf("the way of a page\n");
    return well;
}

/// Makes so many steps in rounds, and compares each round's journal.
static bool compares(const char *name, void (*make)(noted::Log &, Word, std::atomic<size_t> &), size_t steps,
                     const char *folder) {
    size_t made = 0;
    for (Word round = 0; made < steps; round++) {
        noted::Log log(sizes_of(round));
        std::atomic<size_t> words{0};
        make(log, round, words);
        std::vector<noted::Entry> journal = log.take_journal();
        if (!replays(log.sizes(), journal, log.snapshot())) return false;
        auto is_of_a_word = [](const noted::Entry &entry) {
            return entry.step.call == noted::Call::Store || entry.step.call == noted::Call::Load;
        };
        if (std::count_if(journal.begin(), journal.end(), is_of_a_word) != static_cast<std::ptrdiff_t>(words)) {
            std::printf("the journal lacks stores or loads\n");
            return false;
        }
        if (folder) write_script(std::string(folder) + "/" + name + std::to_string(round), log.sizes(), journal);
        made += journal.size();
    }
    std::printf("%s: %zu steps as the core's\n", name, made);
    return true;
}

int main(int count, char **words) {
    size_t steps = count > 1 ? std::strtoull(words[1], nullptr, 10) : 100000;
    const char *folder = count > 2 ? words[2] : nullptr;
    bool one = is_the_way_of_a_page() && are_changed_in_one_step() && is_held_up() &&
               compares("cpp_one_", one_thread, steps, folder);
    return one && compares("cpp_four_", four_threads, steps, folder) ? 0 : 1;
}
