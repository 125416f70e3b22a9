// An append-only log: four threads append records, and one writes the pages to a file behind them. At the end the file
// is read back and compared. Usage: append_log FILE
#include <hl_log.hpp>

#include <array>
#include <atomic>
#include <cstdio>
#include <cstdlib>
#include <fstream>
#include <thread>
#include <vector>

using hl::Word;

static const Word PAGE_SIZE = 64, FRAMES = 16, THREADS = 4, RECORDS = 10000;

[[noreturn]] static void fail(const char *what) {
    std::fprintf(stderr, "%s\n", what);
    std::exit(1);
}

/// A record: how many words it has, its thread, its number, and words that follow from both.
static std::vector<Word> record(Word thread, Word number) {
    std::vector<Word> words = {3 + number % 8, thread, number};
    while (words.size() < words[0])
        words.push_back(thread * RECORDS + number + words.size());
    return words;
}

/// Appends a record, and brings the pass up to date.
static void append(hl::Pass &pass, const std::vector<Word> &words) {
    while (!pass.append(words.data(), words.size())) {
        // No frame is free: the oldest one comes back once every thread has moved on.
        std::this_thread::yield();
        pass.refresh().value();
    }
    pass.keep_up().value();
}

/// Writes a page. One that isn't written may be tried again.
static bool write_page(std::fstream &file, Word page, const Word *words, std::size_t count) {
    std::size_t bytes = count * sizeof *words;
    file.seekp(static_cast<std::streamoff>(page * bytes));
    file.write(reinterpret_cast<const char *>(words), static_cast<std::streamsize>(bytes));
    return file.good();
}

/// One turn of the thread that flushes: it seals what lies below an address, writes sealed pages, and frees what is
/// old.
static void serve(hl::Log &log, std::fstream &file, Word seal_below) {
    hl::Snapshot now = log.snapshot();
    if (seal_below > now.offsets.read_only) log.raise(seal_below).value();
    if (now.pending == 0 && now.offsets.safe_read_only < now.offsets.read_only) log.settle().value();
    while (auto action = log.take())
        log.done(action->ticket).value();
    while (auto page = log.flush_take()) {
        std::array<Word, PAGE_SIZE> words;
        page->copy(words.data(), words.size()).value();
        // A page that isn't done would go back, to be taken again; this program gives up.
        if (!write_page(file, page->page(), words.data(), words.size())) fail("the file takes no page");
        page->done().value();
    }
    now = log.snapshot();
    if (now.offsets.flushed > now.offsets.head) log.shift(now.offsets.flushed).value();
    if (now.pending == 0 && now.offsets.closed < now.offsets.head) log.close().value();
    while (auto page = log.clean_take())
        page->sweep().value();
}

/// Appends all records, and writes all pages.
static void write_log(std::fstream &file) {
    hl::Log log = hl::Log::open(hl::Sizes::checked(PAGE_SIZE, FRAMES, THREADS, 4).value()).value();
    std::atomic<bool> ended{false};
    std::thread flusher([&] {
        while (!ended) {
            serve(log, file, log.offsets().tail / PAGE_SIZE * PAGE_SIZE);
            std::this_thread::yield();
        }
    });
    std::vector<std::thread> threads;
    for (Word thread = 0; thread < THREADS; thread++)
        threads.emplace_back([&log, thread] {
            hl::Pass pass = log.acquire(thread).value();
            for (Word number = 0; number < RECORDS; number++)
                append(pass, record(thread, number));
        });
    for (std::thread &thread : threads)
        thread.join();
    ended = true;
    flusher.join();
    // The last pages, with the one that isn't full. Nobody stored a job.
    hl::Pass pass = log.acquire(0).value();
    auto write = [&file](Word page, const Word *words, std::size_t count) {
        return write_page(file, page, words, count);
    };
    pass.flush(1000, write, [](Word) {}).value();
}

/// Whether the file has each thread's records in their order, and nothing else.
static bool is_as_appended(std::fstream &file) {
    std::array<Word, PAGE_SIZE> page;
    std::array<Word, THREADS> next{};
    file.seekg(0);
    while (file.read(reinterpret_cast<char *>(page.data()), sizeof page)) {
        // What no record was placed on is 0, as is a page's end.
        for (Word at = 0; at < PAGE_SIZE && page[at] != 0; at += page[at]) {
            Word thread = at + 1 < PAGE_SIZE ? page[at + 1] : THREADS;
            if (thread >= THREADS) return false;
            std::vector<Word> wanted = record(thread, next[thread]++);
            if (at + wanted.size() > PAGE_SIZE || !std::equal(wanted.begin(), wanted.end(), &page[at])) return false;
        }
    }
    return next == std::array<Word, THREADS>{RECORDS, RECORDS, RECORDS, RECORDS};
}

int main(int count, char **words) {
    if (count != 2) return std::fprintf(stderr, "usage: append_log FILE\n"), 2;
    std::fstream file(words[1], std::ios::in | std::ios::out | std::ios::binary | std::ios::trunc);
    if (!file) fail("the file can't be opened");
    write_log(file);
    file.flush();
    if (!file) fail("the file takes no page");
    bool same = is_as_appended(file);
    std::printf("%d records of %d threads: %s\n", int(THREADS * RECORDS), int(THREADS),
                same ? "read back as appended" : "not as appended");
    return same ? 0 : 1;
}
