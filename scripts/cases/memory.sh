# Memory is refused at each allocation in turn: from the first read on, the program may take one page more each time. The
# C library is told to ask for pages at each allocation.

# Whether the program awaits its input: it was started and sleeps, which it does nowhere else.
awaits_input() {
    local state
    read -r _ _ state _ < "/proc/$1/stat"
    [ "$(readlink "/proc/$1/exe")" = "$program" ] && [ "$state" = S ]
}

# Runs a script in one form with so many pages more than it has at its first read, and sets status.
with_pages() {
    local script="$1" form="$2" more="$3" held turn
    coproc talk { GLIBC_TUNABLES=glibc.malloc.mmap_threshold=0 exec "$program" "$form" > "$room/text" 2> "$room/errors"; }
    local pid="$talk_PID" to="${talk[1]}"
    for turn in {1..1000}; do
        ! awaits_input "$pid" || break
        sleep 0.01
    done
    held="$(awk '$1 == "VmSize:" { print $2 * 1024 }' "/proc/$pid/status")"
    prlimit --pid "$pid" --as="$((held + more * 4096))"
    cat "$script" >&"$to"
    exec {to}>&-
    status=0
    wait "$pid" || status=$?
}

# With ever more pages a script in one form ends with status 1, the fault's line and the answers to its first lines,
# and at last with its text. The most lines that are answered before are to be in these bounds.
each_page_refused() {
    local script="$1" text="$2" form="$3" least="$4" greatest="$5" more status lines most=0
    for more in {0..200}; do
        with_pages "$script" "$form" "$more"
        [ "$status" != 0 ] || break
        if [ "$status" != 1 ] || [ "$(cat "$room/errors")" != "fault 29 OutOfMemory" ]; then
            echo "with $more pages more it ended with status $status"
            return 1
        fi
        lines="$(wc -l < "$room/text")"
        head -n "$lines" "$text" | cmp - "$room/text" || return 1
        most="$((lines > most ? lines : most))"
    done
    [ "$more" -gt 0 ] || { echo "none was refused"; return 1; }
    [ "$status" = 0 ] && cmp "$text" "$room/text" || return 1
    ((most >= least && most <= greatest)) || { echo "$most lines were answered before a refusal"; return 1; }
}

for name in first_action fuzzy_region stale_reader; do
    of="$scripts/../examples/$name"
    check "memory refused in $name by run" each_page_refused "$of.script" "$of.expected" run 0 0
done

of="$scripts/../examples/first_action"
check "memory refused in first_action by report" each_page_refused "$of.script" "$of.report" report 0 0

judged_by_pages() {
    awk 'NR == FNR { line[NR] = $0; next } { print line[FNR] " -> " $0 }' "$of.script" "$of.expected" > "$room/trace"
    echo "$(wc -l < "$room/trace") lines agree" > "$room/wanted"
    each_page_refused "$room/trace" "$room/wanted" judge 0 0
}

check "memory refused in first_action by judge" judged_by_pages

# The slow form takes memory at later steps too: here of a long script, page by page.
refused_at_later_steps() {
    rounds 300
    each_page_refused "$room/script" "$room/expected" slow 2 300
}

check "memory refused at a later step by slow" refused_at_later_steps

# How many bytes of address space the program has at its first read.
opened_size() {
    coproc talk { exec "$program" run > "$room/text"; }
    local pid="$talk_PID" to="${talk[1]}" turn
    for turn in {1..1000}; do
        ! awaits_input "$pid" || break
        sleep 0.01
    done
    awk '$1 == "VmSize:" { print $2 * 1024 }' "/proc/$pid/status"
    exec {to}>&-
    wait "$pid"
}

# A race of one rider and one round within ever more pages, by so many each time, since a thread's stack has 2,064, that
# each stack is refused often: it ends with status 1 and the fault's line, and at last with its own line. That isn't
# before the stacks of a crew's four threads have room, which wait for one another: a crew without a thread would end well
# within less.
race_within_ever_more_pages() {
    local held more status
    held="$(opened_size)"
    for ((more = 0; more < 100000; more += 131)); do
        status=0
        GLIBC_TUNABLES=glibc.malloc.mmap_threshold=0 prlimit --as="$((held + more * 4096))" \
            "$program" race 1 1 > "$room/text" 2> "$room/errors" || status=$?
        [ "$status" != 0 ] || break
        is_told_refused "with $more pages more" || return
    done
    [ "$more" -gt "$((4 * 2064))" ] || { echo "it ended well within $more pages more"; return 1; }
    [ "$(cat "$room/text")" = "race 1 1 ok" ]
}

# Whether the program ended with status 1 and the fault's line alone: is_told_refused WHEN
is_told_refused() {
    if [ "$status" != 1 ] || [ -s "$room/text" ] || [ "$(cat "$room/errors")" != "fault 29 OutOfMemory" ]; then
        echo "$1 it ended with status $status"
        cat "$room/text" "$room/errors"
        return 1
    fi
}

check "memory for stacks refused in a race" race_within_ever_more_pages

# Runs a program that is refused a call, and sets status: refused NAME=NUMBER PROGRAM WORDS..
refused() {
    local refusal="$1"
    shift
    status=0
    timeout 20 env "$refusal" COUNTED="$room/counted" LD_PRELOAD="$room/refuse.so" \
        "$@" > "$room/text" 2> "$room/errors" || status=$?
}

# Each call for memory is refused in turn to a script in one form, which then ends with status 1, the fault's line and
# the answers to the lines before. By run that is none; by slow, which keeps each accepted step, the refusal is seen at
# some later line too. A few refusals it may do without, as below.
each_call_of_a_script_refused() {
    local script="$1" text="$2" form="$3" least="$4" greatest="$5" status call calls _ lines most=0 done_without=0
    refused REFUSED_CALL=0 "$program" "$form" < "$script"
    [ "$status" = 0 ] && cmp "$text" "$room/text" && read -r calls _ < "$room/counted" || return 1
    for call in $(seq "$calls"); do
        refused "REFUSED_CALL=$call" "$program" "$form" < "$script"
        if [ "$status" = 0 ] && cmp "$text" "$room/text"; then
            done_without="$((done_without + 1))"
            continue
        fi
        if [ "$status" != 1 ] || [ "$(cat "$room/errors")" != "fault 29 OutOfMemory" ]; then
            echo "without call $call it ended with status $status"
            cat "$room/errors"
            return 1
        fi
        lines="$(wc -l < "$room/text")"
        head -n "$lines" "$text" | cmp - "$room/text" || return 1
        most="$((lines > most ? lines : most))"
    done
    [ "$done_without" -lt "$calls" ] && [ "$done_without" -le 8 ] || { echo "it did without $done_without of $calls"; return 1; }
    ((most >= least && most <= greatest)) || { echo "$most lines were answered before a refusal"; return 1; }
}

# The same of a race of one rider and one round: with_refusal NAME=NUMBER WORDS..
with_refusal() {
    local refusal="$1"
    shift
    refused "$refusal" "$program" race 1 1 "$@"
}

# Each call for memory is refused in turn; of the images that the writers of the crew keep, which take nearly all, one
# in 499. The race is refused whole, closes its domain with the riders that came back, and looks for the images of
# flushed pages in the writers that did: another fault, or a race that differs, is one that lost them. Where the library
# tries again for less, or makes two calls in turn for want of a thread, nothing is refused; that is seldom.
each_call_refused() {
    local status call calls _ done_without=0
    with_refusal REFUSED_CALL=0 "$@"
    read -r calls _ < "$room/counted"
    [ "$calls" -gt 16384 ] || { echo "it made $calls calls"; return 1; }
    for call in $(seq 200) $(seq 201 499 "$((calls - 150))") $(seq "$((calls - 149))" "$calls"); do
        with_refusal "REFUSED_CALL=$call" "$@"
        if [ "$status" = 0 ] && [ "$(cat "$room/text")" = "race 1 1 ok" ]; then
            done_without="$((done_without + 1))"
        else
            is_told_refused "without call $call" || return
        fi
    done
    [ "$done_without" -le 8 ] || { echo "it did without $done_without of its calls"; return 1; }
}

# The first thread of a race is its riders', who race in turn with the crew for want of it. Without any other the crew
# isn't whole.
each_thread_refused() {
    local status thread threads _
    with_refusal REFUSED_THREAD=1
    [ "$status" = 0 ] && [ "$(cat "$room/text")" = "race 1 1 ok" ] || { echo "without thread 1"; return 1; }
    for thread in 2 3 4 5; do
        with_refusal "REFUSED_THREAD=$thread"
        is_told_refused "without thread $thread" || return
    done
    with_refusal REFUSED_THREAD=0
    read -r _ threads _ < "$room/counted"
    [ "$threads" = 5 ] || { echo "it made $threads threads"; return 1; }
}

# The first thread of a log with one thread of work is its crew's, which serves after that one for want of it. Without
# any other the crew isn't whole, and the program, which prints nothing, ends with status 1.
each_thread_refused_to_a_log() {
    local status thread threads _
    refused REFUSED_THREAD=1 "$pace" idle 0
    [ "$status" = 0 ] || { echo "without thread 1 it ended with status $status"; return 1; }
    for thread in 2 3 4 5; do
        refused "REFUSED_THREAD=$thread" "$pace" idle 0
        [ "$status" = 1 ] || { echo "without thread $thread it ended with status $status"; return 1; }
    done
    refused REFUSED_THREAD=0 "$pace" idle 0
    read -r _ threads _ < "$room/counted"
    [ "$status" = 0 ] && [ "$threads" = 5 ] || { echo "it made $threads threads"; return 1; }
}

# Each call for memory is refused in turn to a log with one thread of work. Its program then ends with status 1, or does
# without, as it may once its threads have begun, and seldom before; a crew that nobody stopped would never end.
each_call_refused_to_a_log() {
    local status call calls later _ done_without=0
    refused REFUSED_CALL=0 "$pace" idle 0
    [ "$status" = 0 ] && read -r calls _ later _ < "$room/counted" || return 1
    [ "$calls" -gt 30 ] || { echo "it made $calls calls"; return 1; }
    for call in $(seq "$calls"); do
        refused "REFUSED_CALL=$call" "$pace" idle 0
        case "$status" in
            0) done_without="$((done_without + (call <= calls - later)))" ;;
            1) ;;
            *) echo "without call $call it ended with status $status" && return 1 ;;
        esac
    done
    [ "$done_without" -le 8 ] || { echo "it did without $done_without of its first calls"; return 1; }
}

# Each call for memory is refused in turn that a log with one thread of work makes once its threads begin. What that one
# returns and the log's ending come whatever memory does, so the program ends with status 0. Only where a thread of the crew
# is wanting may it be 1, as above: the library takes some memory before it makes one.
each_later_call_refused_to_a_log() {
    local status call calls all threads _
    refused REFUSED_AFTER=0 "$pace" idle 0
    [ "$status" = 0 ] && read -r _ all calls < "$room/counted" || return 1
    [ "$calls" -gt 0 ] || { echo "it made no call once its threads began"; return 1; }
    for call in $(seq "$calls"); do
        refused "REFUSED_AFTER=$call" "$pace" idle 0
        read -r _ threads _ < "$room/counted"
        if [ "$status" != 0 ] && ! { [ "$status" = 1 ] && [ "$threads" -lt "$all" ]; }; then
            echo "without call $call of $calls it ended with status $status, and made $threads threads"
            return 1
        fi
    done
}

if has_all "memory refused call by call" cc; then
    check "the library that refuses" cc -std=c11 -O1 -Wall -Wextra -Werror -fPIC -shared \
        "$scripts/cases/refuse.c" -o "$room/refuse.so"
    # The greatest bounds are the lines of each text but its last.
    for last in "first_action 8" "fuzzy_region 11" "stale_reader 29"; do
        of="$scripts/../examples/${last% *}"
        check "each call for memory refused in ${last% *} by run" \
            each_call_of_a_script_refused "$of.script" "$of.expected" run 0 0
        check "each call for memory refused in ${last% *} by slow" \
            each_call_of_a_script_refused "$of.script" "$of.expected" slow 2 "${last#* }"
    done
    check "each call for memory refused in a race" each_call_refused
    check "each call for memory refused in a race with cuts" each_call_refused --cut
    check "each thread refused in a race" each_thread_refused
    check "each thread refused to a log" each_thread_refused_to_a_log
    check "each call for memory refused to a log" each_call_refused_to_a_log
    check "each call for memory refused to a log whose threads have begun" each_later_call_refused_to_a_log
fi

# A domain of the greatest sizes wants 512 GiB for its words. The bound is for systems that promise more than they have.
widest_domain() {
    local status=0
    (ulimit -v 16000000 && exec "$pace" load 1 1 1048576 65536 1024 4096) > "$room/text" 2> "$room/errors" || status=$?
    [ "$status" = 1 ] && [ ! -s "$room/text" ] && [ "$(cat "$room/errors")" = "fault 29 OutOfMemory" ]
}

check "a domain of the greatest sizes" widest_domain
