// Two objects of one program, which are built as two forms of C++: one answers, the other looks at the answers.
#include "hl.hpp"

#include <cstdio>

hl::Result<hl::Word> placed(hl::Core &core);
hl::Result<hl::Word> refused(hl::Core &core);
hl::Result<void> released(hl::Core &core);

#if defined(ANSWERS)

hl::Result<hl::Word> placed(hl::Core &core) { return core.allocate(0, 3); }
hl::Result<hl::Word> refused(hl::Core &core) { return core.allocate(0, 5); }
hl::Result<void> released(hl::Core &core) { return core.release(0); }

#else

static int wrong;

static void is(const char *name, bool holds) {
    if (!holds) std::printf("%s\n", name);
    wrong += !holds;
}

int main() {
    hl::Core core = hl::Core::open(hl::Sizes::checked(4, 2, 1, 1).value()).value();
    core.acquire(0).value().keep();
    is("a first record", placed(core).value() == 0);
    hl::Result<hl::Word> second = placed(core);
    is("a second record", second.has_value() && *second == 4 && second.value_or(9) == 4);
    hl::Result<hl::Word> third = refused(core);
    is("a refusal", !third && third.error() == hl::Fault::Size && third.value_or(9) == 9);
    is("an answer without a value", released(core).has_value() && released(core).error() == hl::Fault::NotProtected);
    std::printf("two forms of C++: %d wrong\n", wrong);
    return wrong != 0;
}

#endif
