# The report of a script: examples/NAME.report, of 18 lines and 666 bytes, whether the script is a file or comes through a
# pipe. A bad line's text stands alone, and without a line nothing is written.

# The report of this example is the text beside it.
reported() {
    local of="$scripts/../examples/$1"
    [ "$(wc -c < "$of.report")" = 666 ] || { echo "$1.report hasn't 666 bytes"; return 1; }
    answers "$of.script" "$of.report" 0 report
}

# The same where the script comes through a pipe, a line at a time.
reported_by_pipe() {
    local of="$scripts/../examples/$1" line status=0
    while read -r line; do
        echo "$line"
        sleep 0.01
    done < "$of.script" | timeout 60 "$program" report > "$room/text" 2> "$room/errors" || status=$?
    [ "$status" = 0 ] && [ ! -s "$room/errors" ] && cmp "$of.report" "$room/text"
}

# Of the text of a script with a bad line only that line's is told.
told_alone() {
    local of="$scripts/../examples/$1"
    tail -n 1 "$of.expected" > "$room/expected"
    answers "$of.script" "$room/expected" 2 report
}

for name in first_action out_of_order_flush; do
    check "the report of $name" reported "$name"
    check "the report of $name by a pipe" reported_by_pipe "$name"
done
for name in bad_line bad_line_config; do
    check "the report of $name" told_alone "$name"
done
check "the report of no line" answers /dev/null /dev/null 0 report
