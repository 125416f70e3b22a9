// Memory that is refused at each request of opening a log or a core, of acquiring a slot and of taking a page, in C++:
// the answer is OutOfMemory, nothing is kept, and the next call finds all as it was. It is linked with --wrap=malloc
// and
// --wrap=free.
#include "hl_log.hpp"

#include <cstdio>
#include <cstdlib>
#include <new>

extern "C" {
void *__real_malloc(std::size_t size);
void *__wrap_malloc(std::size_t size);
void __real_free(void *at);
void __wrap_free(void *at);
}

// How many requests there were since it was set to 0, which of them is refused, none where it is 0, and how many pieces
// are out.
static unsigned requests, refused, out;
static int wrong;

void *__wrap_malloc(std::size_t size) {
    requests++;
    if (requests == refused) return nullptr;
    out++;
    return __real_malloc(size);
}

void __wrap_free(void *at) {
    if (at) out--;
    __real_free(at);
}

// What the headers ask for, in the same way.
void *operator new(std::size_t size, const std::nothrow_t &) noexcept { return std::malloc(size); }
void *operator new[](std::size_t size, const std::nothrow_t &) noexcept { return std::malloc(size); }
void operator delete(void *at) noexcept { std::free(at); }
void operator delete[](void *at) noexcept { std::free(at); }
void operator delete(void *at, std::size_t) noexcept { std::free(at); }
void operator delete[](void *at, std::size_t) noexcept { std::free(at); }

static void is(const char *name, bool holds) {
    if (!holds) std::printf("%s\n", name);
    wrong += !holds;
}

/// Makes a call with each of its requests refused in turn, and then with none refused: what it answers at last.
template <class Call> static auto refuses_each(const char *name, Call call) {
    unsigned before = out;
    for (unsigned number = 1;; number++) {
        requests = 0;
        refused = number;
        auto told = call();
        if (requests < number) {
            refused = 0;
            is(name, told.has_value());
            is("a call that asks for memory", number > 1);
            return told;
        }
        is(name, !told.has_value() && told.error() == hl::Fault::OutOfMemory);
        is("what is out", out == before);
    }
}

int main() {
    unsigned before = out;
    {
        hl::Sizes sizes = hl::Sizes::checked(64, 2, 4, 4).value();
        auto core = refuses_each("a core", [&] { return hl::Core::open(sizes); });
        hl::Log log = refuses_each("a log", [&] { return hl::Log::open(sizes); }).value();
        hl::Pass pass = refuses_each("a slot", [&] { return log.acquire(2); }).value();
        is("one slot is protected", log.snapshot().protected_slots == 1);
        is("two pages", pass.allocate(64).has_value() && pass.allocate(64).has_value());
        is("a raise and a settle", log.raise(64).has_value() && log.settle().has_value() && pass.refresh().has_value());
        is("the settle is done", log.take().has_value() && log.done(1).has_value());
        hl::Flush flush = refuses_each("a page to flush", [&] { return log.flush_take(); }).value();
        is("its number", flush.page() == 0 && flush.done().value() == 64);
        auto write = [](hl::Word, const hl::Word *, std::size_t) { return true; };
        auto flushed = refuses_each("all pages", [&] { return pass.flush(5, write, [](hl::Word) {}); });
        is("all are flushed", flushed.value() == 128);

        // A slot that rested is refused memory for its pass.
        requests = 0;
        refused = 1;
        auto entered = pass.rest([] {});
        refused = 0;
        is("a rest", !entered.has_value() && entered.error() == hl::Fault::OutOfMemory);
        is("its slot is free", log.snapshot().protected_slots == 0 && log.acquire(2).has_value());
    }
    is("what is out at last", out == before);
    return wrong != 0;
}
