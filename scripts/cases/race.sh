# Races of threads: what is printed, and words that are refused with the range in the reason.

# raced TEXT WORDS..
raced() {
    local text="$1" status=0
    shift
    timeout 60 "$program" race "$@" > "$room/text" 2> "$room/errors" || status=$?
    cat "$room/errors"
    [ "$status" = 0 ] && echo "$text" | cmp - "$room/text"
}

# out_of_range RANGE WORDS..
out_of_range() {
    local range="$1" status=0
    shift
    timeout 60 "$program" race "$@" > "$room/text" 2> "$room/errors" || status=$?
    [ "$status" = 2 ] || { echo "$*: status $status, not 2"; return 1; }
    [ ! -s "$room/text" ] && grep -qF "$range" "$room/errors"
}

check "a race in a wide domain" raced "race 8 100 ok" 8 100 --wide
check "a wide race with cuts" out_of_range "cannot be used with" 2 10 --wide --cut
check "the greatest race" raced "race 8 1000 ok" 8 1000
check "a race of nobody" out_of_range "1..=8" 0 10
check "a race of nine" out_of_range "1..=8" 9 10
check "too many rounds" out_of_range "1..=1000" 2 1001
check "a race without rounds" out_of_range "<ROUNDS>" 2
