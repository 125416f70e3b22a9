# The status of refused words, of streams that fail and of a device that fails, and what is then written where.

sealed_page="$scripts/../examples/flushed_image.script"

# Of both outputs only the text has bytes where help is wanted (status 0), and only the errors where words are refused
# (status 2): told STATUS WORDS..
told() {
    local wanted="$1" status=0
    shift
    timeout 60 "$program" "$@" < "$sealed_page" > "$room/text" 2> "$room/errors" || status=$?
    [ "$status" = "$wanted" ] || { echo "$*: status $status, not $wanted"; return 1; }
    case "$wanted" in
        0) [ -s "$room/text" ] && [ ! -s "$room/errors" ] ;;
        *) [ ! -s "$room/text" ] && [ -s "$room/errors" ] ;;
    esac
}

# With this input and output the program ends with status 1 and tells this fault: faults FAULT INPUT OUTPUT WORDS..
faults() {
    local fault="$1" input="$2" output="$3" status=0
    shift 3
    timeout 60 "$program" "$@" < "$input" > "$output" 2> "$room/errors" || status=$?
    [ "$status" = 1 ] || { echo "$*: status $status, not 1"; return 1; }
    echo "$fault" | cmp - "$room/errors"
}

# An output that takes 1 KiB has the whole text, and then an image that breaks off.
device_fails() {
    printf '%s\n' 'config 4096 2 2 4' 'acquire 0' 'alloc 0 4096' 'raise 4096' settle 'release 0' take 'done 1' > "$room/script"
    printf '%s\n' opened 'epoch 1 view 0 0 0' 'at 0' 'read_only 4096' 'ticket 1' left 'taken 1' 'safe_read_only 4096' > "$room/expected"
    printf 'image ' >> "$room/expected"
    (trap '' XFSZ; ulimit -f 1; faults 'fault 28 Device' "$room/script" "$room/text" run --flush) || return
    [ "$(wc -c < "$room/text")" = 1024 ] && cmp -n "$(wc -c < "$room/expected")" "$room/expected" "$room/text"
}

check "help" told 0 --help
check "another command" told 2 walk
check "no command" told 2
check "a word too many" told 2 run fast
check "another flag" told 2 run --flash
check "a flag of run" told 2 slow --flush
check "a word too many, report" told 2 report slow
check "a word too many, judge" told 2 judge slow
check "help that can't be written" faults 'fault 31 Stream' /dev/null /dev/full --help
for form in run slow report judge; do
    # A folder can be opened, but not read.
    check "a read that fails, $form" faults 'fault 31 Stream' / "$room/text" "$form"
    check "a write that fails, $form" faults 'fault 31 Stream' "$sealed_page" /dev/full "$form"
    check "a bad line that can't be written, $form" faults 'fault 31 Stream' "$scripts/../examples/bad_line.script" /dev/full "$form"
done
check "a device that fails" device_fails
