# A script's run as a page and as an explained text: both show the program's answers, and what they ask it between
# the lines changes none.

# The answers to an example's own lines, among all that is asked, are its text.
answers_stay() {
    python3 -B "$scripts/shown/told.py" "$program" < "$1" > "$room/text" && cmp "${1%.script}.expected" "$room/text"
}

for script in "${texted[@]}"; do
    name="$(basename "$script" .script)"
    [ -e "${script%.script}.args" ] || check "the answers of $name among questions" answers_stay "$script"
done

# With this status an explained text is that of a file: explains SCRIPT TEXT STATUS
explains() {
    local status=0
    "$scripts/explain" "$program" < "$1" > "$room/text" || status=$?
    [ "$status" = "$3" ] || { echo "status $status, not $3"; return 1; }
    cmp "$2" "$room/text"
}

# Each kind of refusal that a short script meets, with its sentence, written by hand.
each_refusal_explained() {
    cat > "$room/script" << 'END'
config 4 2 2 1
take
acquire 2
acquire 0
acquire 0
release 1
write 0 0 1
alloc 0 5
alloc 0 4
alloc 0 4
write 0 8 1
raise 9
raise 8
raise 8
settle
settle
bump 1000
take
done 1
look 0 8 0
look 0 7 0
write 0 1 1
refresh 0
take
take
bump 1
done 1
flush take
flush take
flush take
flush done 1 ok
shift 4
shift 3
flush done 0 ok
flush done 0 ok
shift 8
close
bump 2
refresh 0
read 0 0
take
done 2
bump 3
bump 3
clean take
clean take
clean take
alloc 0 1
clean done 1
clean done 1
END
    "$scripts/explain" "$program" < "$room/script" | sed -n 's/^ *\([A-Z].*\)$/\1/p' > "$room/text"
    cmp - "$room/text" << 'END'
Nothing is pending: a bump, a settle or a close stores an action.
The slots are 0 to 1.
Slot 0 is protected, at epoch 1: it may refresh or leave.
Nobody is protected in slot 1: acquire it first.
The tail is 0: no record was placed above it.
A record has 1 to 4 words, and lies on one page.
The tail is 8: no record was placed above it.
The tail is 8: no record was placed above it.
The read-only offset is 8 already, and never falls.
No place of the drain list is left: ticket 1 is pending.
Jobs have the tags 0 to 999.
Ticket 1 waits until every protected slot is above epoch 1: slot 0 is at epoch 1, and must refresh or leave.
Ticket 1 is pending: a take comes first.
Slot 0 saw the read-only offset 8 and the head 0 before.
Slot 0 saw the read-only offset 8, and may not write below it.
Nothing is pending; ticket 1 is taken already, and not done.
No place of the drain list is left: ticket 1 is taken and not done.
Each page that ends at or below the safe read-only offset, 8, is flushed or in flight (pages 0 and 1).
The flushed offset is 0: page 0 still wants the end of its flush (flush done 0).
A page begins at each multiple of 4.
No page is in flight.
No place of the drain list is left: ticket 2 is pending.
Slot 0 saw the head 8, and may not read below it.
The job of tag 3 went with ticket 3, and each goes once.
Each page that ends at or below the closed offset, 8, is freed or being cleaned (pages 0 and 1).
Page 2 wants frame 0, which has page 0: it still wants the end of its cleaning (clean done 0).
Page 0 is being cleaned.
END
}

# What a page in a frame still wants, at each step of its way until the frame is free.
each_want_explained() {
    local step steps=('raise 4' settle 'refresh 0' take 'done 1' 'flush take' 'flush done 0 ok' 'shift 4' close
        'refresh 0' take 'done 2' 'clean take' 'clean done 0')
    {
        printf '%s\n' 'config 4 2 1 4' 'acquire 0' 'alloc 0 4' 'alloc 0 4'
        for step in "${steps[@]}"; do
            printf '%s\n' 'alloc 0 4' "$step"
        done
        echo 'alloc 0 4'
    } > "$room/script"
    "$scripts/explain" "$program" < "$room/script" |
        sed -n 's/^ *Page 2 wants frame 0, which has page 0: it still wants \(.*\)\.$/\1/p' > "$room/text"
    cmp - "$room/text" << 'END'
a raise to 4, a settle, a flush, a shift, a close and a clean
a settle, a flush, a shift, a close and a clean
a settle (ticket 1 waits: slot 0 is at epoch 1, and must refresh or leave), a flush, a shift, a close and a clean
a settle (ticket 1 may be taken), a flush, a shift, a close and a clean
a settle (ticket 1 is taken: done 1), a flush, a shift, a close and a clean
a flush, a shift, a close and a clean
the end of its flush (flush done 0), a shift, a close and a clean
a shift to 4, a close and a clean
a close and a clean
a close (ticket 2 waits: slot 0 is at epoch 2, and must refresh or leave) and a clean
a close (ticket 2 may be taken) and a clean
a close (ticket 2 is taken: done 2) and a clean
a clean
the end of its cleaning (clean done 0)
END
}

# Both bumps that the window refuses name the slot that doesn't follow.
full_window_explained() {
    "$scripts/explain" "$program" < "$scripts/../examples/full_window.script" |
        sed -n 's/^ *\(.* epochs have ended .*\)/\1/p' > "$room/text"
    printf '%s\n' {,}"4096 epochs have ended and are not safe: slot 0 is at epoch 1, and must refresh or leave." |
        cmp - "$room/text"
}

of="$scripts/../examples/stale_reader"
check "stale_reader explained" explains "$of.script" "$of.explained" 0
check "refusals explained" each_refusal_explained
check "what a page still wants" each_want_explained
check "a full window explained" full_window_explained

# The page of a script with a bad line shows the lines up to it, and its status is 2.
page_of_bad_line() {
    local status=0
    "$scripts/view" "$program" "$scripts/../examples/bad_line.script" > "$room/page.html" 2> "$room/errors" || status=$?
    [ "$status" = 2 ] || { echo "status $status, not 2"; return 1; }
    grep -q 'line 3: not a step$' "$room/errors" || return
    grep -q '"answer":"line 3: not a step",.*"bad":true' "$room/page.html"
}

# A page of no script, of an empty one, and of too many words is none: no_page STATUS WORDS..
no_page() {
    local wanted="$1" status=0
    shift
    "$scripts/view" "$program" "$@" > "$room/page.html" 2> "$room/errors" || status=$?
    [ "$status" = "$wanted" ] && [ ! -s "$room/page.html" ] && [ -s "$room/errors" ]
}

# Streams that fail end both with status 1 and a word on standard error.
streams_fail() {
    local of="$scripts/../examples/stale_reader.script"
    "$scripts/explain" "$program" < "$of" > /dev/full 2> "$room/errors" && return 1
    [ -s "$room/errors" ] || return
    "$scripts/explain" "$program" < "$of" >&- 2> "$room/errors" && return 1
    [ "$(cat "$room/errors")" = "hl: standard output is closed" ] || return
    "$scripts/explain" "$program" <&- > "$room/text" 2> "$room/errors" && return 1
    [ -s "$room/errors" ] && [ ! -s "$room/text" ] || return
    "$scripts/view" "$program" "$of" > /dev/full 2> "$room/errors" && return 1
    [ -s "$room/errors" ]
}

check "streams that fail, of pages and explanations" streams_fail
check "the page of a bad line" page_of_bad_line
check "the page of no script" no_page 1 "$room/absent"
check "the page of no line" no_page 2 "$scripts/../examples/empty_input.script"
check "a word too many for a page" no_page 2 "$of.script" more

# The pages of docs/pages are what ./hl view makes of their examples. Where one is old:
# ./hl view examples/NAME.script > docs/pages/NAME.html
page_as_committed() {
    "$scripts/view" "$program" "$scripts/../examples/$1.script" | cmp "$scripts/../docs/pages/$1.html"
}

for page in first_action fuzzy_region stale_reader; do
    check "the page docs/pages/$page.html" page_as_committed "$page"
done

# In a browser a page goes to each line, without an error and without a request, and shows there what the program
# answers and tells after that line. Two slots a line are written by hand, on standard input: shows NAME LINE..
shows() {
    local of="$scripts/../examples/$1" line
    local -a slots
    mapfile -t slots
    shift
    "$scripts/view" "$program" "$of.script" > "$room/page.html" || return
    for line in "$@"; do
        { head -n "$line" "$of.script"; printf '%s\n' status pending frames; } | "$program" run | tail -n 4
        printf '%s\n' "${slots[@]:0:2}"
        slots=("${slots[@]:2}")
    done > "$room/expected"
    python3 -B "$scripts/shown/read_page.py" "$room/page.html" "$@" > "$room/text" && diff "$room/expected" "$room/text"
}

if command -v chromium chromium-browser google-chrome > /dev/null; then
    # Slot, epoch, read-only offset, head, tail.
    check "the page of out_of_order_flush in a browser" shows out_of_order_flush 4 9 14 << 'END'
slot 0 1 0 0 8
slot 1 not protected
slot 0 2 8 0 8
slot 1 not protected
slot 0 2 8 0 8
slot 1 not protected
END
    check "the page of stale_reader in a browser" shows stale_reader 6 19 30 << 'END'
slot 0 1 0 0 8
slot 1 1 0 0 8
slot 0 3 8 4 8
slot 1 2 8 0 8
slot 0 3 8 4 9
slot 1 3 8 4 8
END
    check "the page of first_action in a browser" shows first_action 9 << 'END'
slot 0 2 0 0 0
slot 1 not protected
END
    check "the page of fuzzy_region in a browser" shows fuzzy_region 12 << 'END'
slot 0 2 4 0 4
slot 1 2 4 0 4
END
else
    echo "left out: pages in a browser, since there is no Chromium here"
fi
