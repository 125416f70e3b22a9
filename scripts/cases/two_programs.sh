# The small program, which ./hl runs while the whole one isn't proved, answers scripts as that does, and takes no other
# words.

# A case of the small program.
by_small() {
    local program="$small"
    "$@"
}

for name in first_action flushed_image bad_line; do
    of="$scripts/../examples/$name"
    words=()
    [ ! -e "$of.args" ] || mapfile -t words < "$of.args"
    status="$(status_of "$of.expected")"
    check "$name by run of the small program" by_small answers "$of.script" "$of.expected" "$status" run "${words[@]}"
done
of="$scripts/../examples/first_action"
check "first_action by slow of the small program" by_small answers "$of.script" "$of.expected" 0 slow
check "the report of first_action by the small program" by_small reported first_action
check "a read that fails, the small program" by_small faults 'fault 31 Stream' / "$room/text" run
check "a write that fails, the small program" by_small faults 'fault 31 Stream' "$of.script" /dev/full slow
check "no word, the small program" by_small told 2
check "a word too many, the small program" by_small told 2 run --flush --flush
check "an empty word, the small program" by_small told 2 run ''
check "another command, the small program" by_small told 2 race 1 1
