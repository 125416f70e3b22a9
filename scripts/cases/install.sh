# What ./hl install lays out is all that programs in C, C++ and Rust need: they are built against it and run with
# nothing else in the environment, and nothing of the kit on the path. What has no compiler here is left out, and named.
# The journals that the logs of C++ and Rust write are answered by the program with the text that they have.

top="$(cd "$scripts/.." && pwd)"
installed="$room/installed"

# Runs a command with nothing but what a system's compiler needs.
alone() {
    env -i PATH=/usr/bin:/bin PKG_CONFIG_PATH="$installed/lib/pkgconfig" "$@"
}

# The same for cargo, which knows its toolchains by its home.
with_cargo() {
    env -i PATH="$(dirname "$(command -v cargo)"):/usr/bin:/bin" HOME="$HOME" \
        ${RUSTUP_HOME:+"RUSTUP_HOME=$RUSTUP_HOME"} ${CARGO_HOME:+"CARGO_HOME=$CARGO_HOME"} \
        HL_DIR="$installed" CARGO_TARGET_DIR="$room/target" "$@"
}

# Installs into a folder, and moves that.
installs() {
    "$top/hl" install "$room/made" && mv "$room/made" "$installed"
}

# Builds a program of the repository, with further options where some are set, and runs it on words:
# builds_and_runs COMPILER STANDARD SOURCE [WORD..]
builds_and_runs() {
    local compiler="$1" standard="$2" source="$top/$3" flags
    shift 3
    flags="$(alone pkg-config --cflags --libs hl)" || return
    # The flags of pkg-config and the options are apart by blanks.
    alone "$compiler" -std="$standard" -O1 -Wall -Wextra -pedantic -Werror ${options:-} "$source" $flags -pthread \
        -o "$room/app" &&
        alone timeout 100 "$room/app" "$@" > "$room/app.text"
}

# The C program that answers a script's text writes that text.
answers_in_c() {
    builds_and_runs cc c11 bench/c/first_action.c && cmp "$room/app.text" "$top/examples/first_action.expected"
}

# The program answers each journal of the folder with its text.
answers_journals() {
    local script
    for script in "$1"/*.script; do
        answers "$script" "${script%.script}.expected" 0 run || { echo "of $script"; return 1; }
    done
}

log_in_cpp() {
    mkdir -p "$room/cpp_journals"
    builds_and_runs c++ c++17 native/tests/log.cpp 100000 "$room/cpp_journals" &&
        answers_journals "$room/cpp_journals"
}

# Whether this compiler makes programs that watch their threads.
watches_threads() {
    echo 'int main() { return 0; }' > "$room/watched.c"
    alone "$1" -fsanitize=thread "$room/watched.c" -o "$room/app" 2> /dev/null && alone "$room/app" 2> /dev/null
}

# A program of two objects, of C++17 and of a later form, hands answers from one to the other.
of_two_forms() {
    local flags form program="$top/native/tests/two_forms.cpp"
    flags="$(alone pkg-config --cflags --libs hl)" || return
    for form in c++23 c++2b c++20; do
        ! alone c++ -std="$form" -fsyntax-only -x c++ /dev/null 2> /dev/null || break
    done
    # The flags of pkg-config are apart by blanks.
    alone c++ -std=c++17 -Wall -Wextra -pedantic -Werror -DANSWERS -c "$program" $flags -o "$room/answers.o" &&
        alone c++ -std="$form" -Wall -Wextra -pedantic -Werror "$program" "$room/answers.o" $flags -o "$room/app" &&
        alone timeout 100 "$room/app"
}

# An older form of C++ is told which it wants.
refuses_old_forms() {
    local flags
    flags="$(alone pkg-config --cflags hl)" || return
    echo '#include <hl.hpp>' > "$room/old.cpp"
    ! alone c++ -std=c++14 $flags -fsyntax-only "$room/old.cpp" 2> "$room/errors" &&
        grep -q 'hl for C++ wants C++17 or later' "$room/errors"
}

by_cmake() {
    mkdir -p "$room/cmake"
    cat > "$room/cmake/CMakeLists.txt" << LISTS
cmake_minimum_required(VERSION 3.13)
project(app CXX)
set(CMAKE_CXX_STANDARD 17)
find_package(hl $(cat "$top/VERSION") REQUIRED)
add_executable(app "$top/native/examples/append_log.cpp")
target_link_libraries(app hl::hl)
LISTS
    alone cmake -S "$room/cmake" -B "$room/cmake/build" -DCMAKE_PREFIX_PATH="$installed" &&
        alone cmake --build "$room/cmake/build" && alone timeout 100 "$room/cmake/build/app" "$room/cmake.log"
}

crate_tests() {
    mkdir -p "$room/rust_journals"
    cp -r "$top/rust/hl" "$room/crate"
    rm -rf "$room/crate/target"
    (cd "$room/crate" && with_cargo HL_JOURNALS="$room/rust_journals" cargo test --quiet --offline) &&
        answers_journals "$room/rust_journals"
}

# An example as a program of one's own that names the installed crate: by_the_crate EXAMPLE [WORD..]
by_the_crate() {
    local example="$1"
    shift
    mkdir -p "$room/app_in_rust/src"
    printf '%s\n' '[package]' 'name = "app"' 'edition = "2021"' '[dependencies]' \
        "hl = { path = \"$installed/share/hl/rust\" }" > "$room/app_in_rust/Cargo.toml"
    cp "$top/rust/hl/examples/$example.rs" "$room/app_in_rust/src/main.rs"
    (cd "$room/app_in_rust" && with_cargo HL_DIR= timeout 100 cargo run --quiet --offline -- "$@")
}

# All files tell the version.
one_version() {
    local version place
    version="$(cat "$top/VERSION")"
    [ "$("$top/hl" --version)" = "hl $version" ] || return
    for place in "include/hl.h:#define HL_VERSION \"$version\"" \
        "lib/pkgconfig/hl.pc:Version: $version" \
        "lib/cmake/hl/hl-config-version.cmake:set(PACKAGE_VERSION \"$version\")" \
        "share/hl/rust/Cargo.toml:version = \"$version\""; do
        grep -qxF "${place#*:}" "$installed/${place%%:*}" || { echo "${place%%:*} tells another version"; return 1; }
    done
    [ "$(sed -n 's/^#define HL_VERSION_[A-Z]* //p' "$installed/include/hl.h" | paste -sd .)" = "$version" ] || return
    grep -q "^## $version\$" "$top/CHANGELOG.md"
}

# The library tells its version itself: that of the header beside it, and its own where a header tells another.
own_version() {
    local flags version
    version="$(cat "$top/VERSION")"
    flags="$(alone pkg-config --cflags --libs hl)" || return
    printf '%s\n' '#include <hl.h>' '#include <stdio.h>' \
        'int main(void) { return puts(hl_version()) < 0 || puts(HL_VERSION) < 0; }' > "$room/version.c"
    mkdir -p "$room/other"
    sed 's/^#define HL_VERSION .*/#define HL_VERSION "another"/' "$installed/include/hl.h" > "$room/other/hl.h"
    # The flags of pkg-config are apart by blanks.
    alone cc -std=c11 "$room/version.c" $flags -o "$room/app" &&
        printf '%s\n' "$version" "$version" | cmp - <(alone "$room/app") &&
        alone cc -std=c11 -I"$room/other" "$room/version.c" $flags -o "$room/app" &&
        printf '%s\n' "$version" another | cmp - <(alone "$room/app") &&
        alone cc -std=c11 "$room/version.c" -I"$installed/include" -L"$installed/lib/shared" -lhl -o "$room/app" &&
        printf '%s\n' "$version" "$version" | cmp - <(LD_LIBRARY_PATH="$installed/lib/shared" "$room/app")
}

# Packs an archive twice, unpacks it at another place, and answers a script and builds a program from there. What follows
# is built against the unpacked archive, too.
packs() {
    local flags unpacked="$room/unpacked/hl-$(cat "$top/VERSION")"
    mkdir -p "$room/packed" "$room/unpacked"
    "$top/hl" install --archive "$room/packed/once.tar.gz" && "$top/hl" install --archive "$room/packed/twice.tar.gz" &&
        cmp "$room/packed/once.tar.gz" "$room/packed/twice.tar.gz" &&
        (cd "$room/packed" && sha256sum --check --quiet once.tar.gz.sha256) &&
        tar -C "$room/unpacked" -xzf "$room/packed/once.tar.gz" || return
    alone "$unpacked/bin/hl_tool" run < "$top/examples/first_action.script" | cmp - "$top/examples/first_action.expected" ||
        return
    # The flags of pkg-config are apart by blanks.
    flags="$(PKG_CONFIG_PATH="$unpacked/lib/pkgconfig" pkg-config --cflags --libs hl)" || return
    alone cc -std=c11 "$unpacked/share/hl/examples/append_log.c" $flags -pthread -o "$room/app" &&
        alone "$room/app" "$room/unpacked.log" > "$room/app.text" || return
    alone cc -std=c11 "$unpacked/share/hl/examples/append_log.c" -I"$unpacked/include" -L"$unpacked/lib/shared" -lhl -pthread \
        -o "$room/app" && LD_LIBRARY_PATH="$unpacked/lib/shared" "$room/app" "$room/shared.log" > "$room/app.text" || return
    installed="$unpacked"
}

if has_all "what ./hl install lays out" as ld objcopy nm ar rt; then
    check "install" installs
    check "one version" one_version
    if path=/usr/bin:/bin has_all "the archive of it" cc pkg-config tar gzip sha256sum; then
        check "an archive of what is installed" packs
    fi
    if path=/usr/bin:/bin has_all "programs in C" cc pkg-config; then
        check "the version that the library tells" own_version
        check "a script in C" answers_in_c
        check "misuse in C" builds_and_runs cc c11 native/tests/misuse.c
        check "an append-only log in C" builds_and_runs cc c11 native/examples/append_log.c "$room/c.log"
        check "a core with words of its own in C" builds_and_runs cc c11 native/examples/own_words.c "$room/words.log"
        check "what each call of a log of threads answers in C" builds_and_runs cc c11 native/tests/threads.c
        check "a log of threads of the greatest sizes in C" builds_and_runs cc c11 native/tests/wide_log.c
        options=-Wl,--wrap=malloc,--wrap=free check "refused memory in C" builds_and_runs cc c11 native/tests/refused.c
        ! watches_threads cc || options=-fsanitize=thread check "threads in C by ThreadSanitizer" \
            builds_and_runs cc c11 native/tests/threads.c
    fi
    if path=/usr/bin:/bin has_all "programs in C++" c++ pkg-config; then
        check "a core in C++" builds_and_runs c++ c++17 native/tests/core.cpp
        check "misuse in C++" builds_and_runs c++ c++17 native/tests/misuse.cpp
        options=-Wl,--wrap=malloc,--wrap=free check "refused memory in C++" builds_and_runs c++ c++17 \
            native/tests/refused.cpp
        ! watches_threads c++ || options=-fsanitize=thread check "threads in C++ by ThreadSanitizer" \
            builds_and_runs c++ c++17 native/tests/log.cpp 20000
        check "daily calls in C++" builds_and_runs c++ c++17 native/tests/daily.cpp
        check "counters that are evicted in C++" builds_and_runs c++ c++17 native/examples/counters.cpp
        ! watches_threads c++ || options=-fsanitize=thread check "counters in C++ by ThreadSanitizer" \
            builds_and_runs c++ c++17 native/examples/counters.cpp
        check "two forms of C++ in one program" of_two_forms
        check "a form of C++ that is too old" refuses_old_forms
        check "a log in C++ beside the core" log_in_cpp
        if path=/usr/bin:/bin has_all "programs by CMake" cmake make; then
            check "an append-only log in C++ by CMake" by_cmake
        else
            check "an append-only log in C++" builds_and_runs c++ c++17 native/examples/append_log.cpp "$room/cpp.log"
        fi
    fi
    if has_all "programs in Rust" cargo cc; then
        check "the tests of the Rust crate" crate_tests
        check "an append-only log in Rust" by_the_crate append_log "$room/rust.log"
        check "counters that are evicted in Rust" by_the_crate counters
    fi
fi
