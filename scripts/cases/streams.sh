# Standard streams that fail, or that never end: the program ends with a status and doesn't hang.

# The status and the line on standard error after a stream failed.
ended_by_stream() {
    if [ "$1" != 1 ] || [ "$(cat "$room/errors")" != "fault 31 Stream" ]; then
        echo "it ended with status $1 and told:"
        cat "$room/errors"
        return 1
    fi
}

# A device that takes no byte: full_disk SCRIPT WORDS..
full_disk() {
    local script="$1" status=0
    shift
    timeout 10 "$program" "$@" < "$script" > /dev/full 2> "$room/errors" || status=$?
    ended_by_stream "$status"
}

# Standard output that isn't there.
closed_output() {
    local script="$1" status=0
    shift
    timeout 10 "$program" "$@" < "$script" 2> "$room/errors" >&- || status=$?
    ended_by_stream "$status"
}

# Standard input that isn't there, and one that can't be read: nothing is written.
no_input() {
    local status=0
    timeout 10 "$program" "$@" 2> "$room/errors" > "$room/text" <&- || status=$?
    ended_by_stream "$status" && cmp /dev/null "$room/text" || return 1
    status=0
    timeout 10 "$program" "$@" < "$room" 2> "$room/errors" > "$room/text" || status=$?
    ended_by_stream "$status" && cmp /dev/null "$room/text"
}

# A line without an end is refused at its 81st byte.
endless_line() {
    local status=0
    timeout 10 "$program" "$@" < <(tr '\0' a < /dev/zero 2> /dev/null) > "$room/text" 2> "$room/errors" || status=$?
    [ "$status" = 2 ] || { echo "it ended with status $status"; return 1; }
    [ ! -s "$room/errors" ] && echo "line 1: not a step" | cmp - "$room/text"
}

# An output pipe whose other end is closed, before the first line is sent or after the first reply.
closed_pipe() {
    local replies="$1" reply status=0
    shift
    coproc talk { exec timeout 10 "$program" "$@" 2> "$room/errors"; }
    local pid="$talk_PID" to="${talk[1]}" from="${talk[0]}"
    if [ "$replies" = 1 ]; then
        echo "config 4 2 2 2" >&"$to"
        read -r -t 10 reply <&"$from"
        [ "$reply" = opened ] || { echo "it answered '$reply'"; return 1; }
    fi
    exec {from}<&-
    [ "$replies" = 1 ] || echo "config 4 2 2 2" >&"$to"
    echo "acquire 0" >&"$to"
    wait "$pid" || status=$?
    exec {to}>&-
    ended_by_stream "$status"
}

for form in run slow report judge; do
    check "a full disk by $form" full_disk "$scripts/../examples/first_action.script" "$form"
    check "no standard output by $form" closed_output "$scripts/../examples/first_action.script" "$form"
    check "no standard input by $form" no_input "$form"
done
for form in run slow report; do
    check "a line without an end by $form" endless_line "$form"
done
for form in run slow; do
    check "a closed pipe by $form" closed_pipe 0 "$form"
    check "a pipe closed after a reply by $form" closed_pipe 1 "$form"
done
check "a full disk by run --flush" full_disk "$scripts/../examples/flushed_image.script" run --flush
