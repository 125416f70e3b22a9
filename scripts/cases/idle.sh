# A crew that serves with nothing to do: beyond what the program takes to begin and to end, it uses in ten seconds less than
# a hundredth of a processor.

# The milliseconds of a processor that the program uses while its thread sleeps for so many seconds, and how many pass.
used_and_passed() {
    local TIMEFORMAT='%3U %3S %3R'
    { time timeout 60 "$pace" idle "$1" 2> "$room/errors"; } 2> "$room/times" || return
    awk '{ print ($1 + $2) * 1000, $3 * 1000 }' "$room/times"
}

rests_while_idle() {
    local without with passed
    read -r without _ < <(used_and_passed 0)
    read -r with passed < <(used_and_passed 10)
    cat "$room/errors"
    echo "it used $with ms in $passed ms, and $without ms to begin and end"
    ((passed >= 10000 && with - without < 100))
}

check "a crew with nothing to do" rests_while_idle
