# The judge of traces: the lines of the examples, each with its reply, agree, and a changed reply deviates where it stands.

# Makes a trace of a script and the text beside it.
trace_of() {
    awk 'NR == FNR { line[NR] = $0; next } { print line[FNR] " -> " $0 }' "$1" "${1%.script}.expected" > "$room/trace"
}

# Both programs say this of the trace: judged STATUS LINE..
judged() {
    local status="$1" each
    shift
    printf '%s\n' "$@" > "$room/wanted"
    for each in "$program" "$small"; do
        program="$each" answers "$room/trace" "$room/wanted" "$status" judge || return
    done
}

agrees() {
    trace_of "$1"
    judged 0 "$(wc -l < "$room/trace") lines agree"
}

# The lines before the bad one agree, and it is no line of a trace.
agrees_up_to_a_bad_line() {
    trace_of "$1"
    judged 2 "line $(wc -l < "$room/trace"): no line of a trace"
}

# Line by line: the last byte of its reply is another, or missing, or is followed by one more.
deviates_at_each_line() {
    local lines number line reply changed
    trace_of "$1"
    cp "$room/trace" "$room/agrees"
    lines="$(wc -l < "$room/agrees")"
    for ((number = 1; number <= lines; number++)); do
        line="$(sed -n "${number}p" "$room/agrees")"
        reply="${line#* -> }"
        for changed in "${line%?}~" "${line%?}" "$line "; do
            awk -v number="$number" -v changed="$changed" 'NR == number { $0 = changed } { print }' "$room/agrees" > "$room/trace"
            judged 1 "line $number deviates: $changed" "the definitions answer: $reply" || return
        done
    done
}

# These lines are a trace of which the last is told so: says STATUS TEXT LINE..
says() {
    local status="$1" text="$2"
    shift 2
    printf '%s\n' "$@" > "$room/trace"
    judged "$status" "$text"
}

# A line has as many bytes as one may have at most, and then one more.
longest_line() {
    local line
    line="config 4 2 2 2 -> $(head -c 8258 /dev/zero | tr '\0' x)"
    echo "$line" > "$room/trace"
    judged 1 "line 1 deviates: $line" "the definitions answer: opened" && says 2 "line 1: no line of a trace" "${line}x" &&
        says 2 "line 2: no line of a trace" "config 4 2 2 2 -> opened" "status -> ${line}x"
}

# The longest answers, and a trace that comes through a pipe a few bytes at a time.
longest_answers() {
    { echo "config 4 256 64 64"; echo frames; echo status; echo pending; } > "$room/script"
    "$program" run < "$room/script" > "$room/replies"
    awk 'NR == FNR { line[NR] = $0; next } { print line[FNR] " -> " $0 }' "$room/script" "$room/replies" > "$room/trace"
    judged 0 "4 lines agree" && dd if="$room/trace" bs=7 2> /dev/null | "$program" judge | cmp - "$room/wanted"
}

# The last line needs no LF.
no_last_end() {
    printf 'config 4 2 2 2 -> opened\nacquire 0 -> epoch 1 view 0 0 0' > "$room/trace"
    judged 0 "2 lines agree" || return
    printf 'config 4 2 2 2 -> opened\nacquire 0 -> epoch 1 view 0 0 1' > "$room/trace"
    judged 1 "line 2 deviates: acquire 0 -> epoch 1 view 0 0 1" "the definitions answer: epoch 1 view 0 0 0"
}

# A line without an end is none, and no more of it is read.
endless_entry() {
    local status=0
    timeout 10 "$program" judge < <(tr '\0' a < /dev/zero 2> /dev/null) > "$room/text" 2> "$room/errors" || status=$?
    [ "$status" = 2 ] && [ ! -s "$room/errors" ] && echo "line 1: no line of a trace" | cmp - "$room/text"
}

# The example in C++ agrees, and with its mistake deviates. What ./hl judge says more stands below.
judges_an_engine() {
    local source="$scripts/../native/examples/judged_log.cpp"
    PATH=/usr/bin:/bin c++ -std=c++17 -O1 -Wall -Wextra -pedantic -Werror "$source" -pthread -o "$room/judged_log" || return
    timeout 100 "$room/judged_log" > "$room/trace" && judged 0 "$(wc -l < "$room/trace") lines agree" || return
    timeout 100 "$room/judged_log" --mistake > "$room/trace" &&
        judged 1 "line 4 deviates: take -> taken 1" "the definitions answer: fault 8 NotReady front 1 safe 0"
}

explains_a_deviation() {
    local status=0
    printf '%s\n' 'config 4 2 2 2 -> opened' 'acquire 0 -> epoch 1 view 0 0 0' 'bump 7 -> ticket 1' 'take -> taken 1' > "$room/trace"
    "$scripts/../hl" judge < "$room/trace" > "$room/text" 2> "$room/errors" || status=$?
    [ "$status" = 1 ] && sed -n 3p "$room/text" | grep -q '^    Ticket 1 waits .* slot 0 is at epoch 1'
}

for script in "${texted[@]}"; do
    name="${script##*/}"
    name="${name%.script}"
    if [ ! -s "$script" ] || [ -e "${script%.script}.args" ]; then
        continue
    elif [ "$(status_of "${script%.script}.expected")" = 2 ]; then
        check "the trace of $name, judged" agrees_up_to_a_bad_line "$script"
    else
        check "the trace of $name, judged" agrees "$script"
    fi
done
for name in first_action fuzzy_region; do
    check "a changed reply of $name, judged" deviates_at_each_line "$scripts/../examples/$name.script"
done
: > "$room/trace"
check "no line, judged" judged 0 "0 lines agree"
check "a line without a reply, judged" says 2 "line 2: no line of a trace" "config 4 2 2 2 -> opened" "acquire 0"
check "an empty line, judged" says 2 "line 1: no line of a trace" ""
check "another config, judged" says 2 "line 2: no line of a trace" "config 4 2 2 2 -> opened" "config 4 2 2 2 -> opened"
check "no config, judged" says 2 "line 1: no line of a trace" "acquire 0 -> epoch 1 view 0 0 0"
check "a line with two spaces, judged" says 2 "line 2: no line of a trace" "config 4 2 2 2 -> opened" "acquire 0  -> left"
check "the longest line, judged" longest_line
check "the longest answers, judged" longest_answers
check "a last line without its end, judged" no_last_end
check "a line without an end, judged" endless_entry
if has_all "the judged example in C++" c++; then
    check "an engine in C++, judged" judges_an_engine
fi
if has_all "what ./hl judge says of a deviation" python3; then
    check "a deviation, explained" explains_a_deviation
fi
