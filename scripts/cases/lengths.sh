# Scripts and answers of each length, with texts that follow from the lines alone. A program that failed at one length,
# as for a stream or memory that failed, would break no contract.

# A script of so many accepted steps and its text: slot 0 enters, and then each four steps bump the tag r in round r,
# refresh, take the action of ticket r + 1, and have it done, which answers tag + ticket.
rounds() {
    awk -v steps="$1" -v script="$room/script" -v text="$room/expected" 'BEGIN {
        print "config 4 2 2 2" > script
        print "opened" > text
        for (i = 0; i < steps; i++) {
            r = int((i - 1) / 4)
            kind = i == 0 ? 4 : (i - 1) % 4
            if (kind == 0) { print "bump " r > script; print "ticket " r + 1 > text }
            if (kind == 1) { print "refresh 0" > script; print "epoch " r + 2 " view 0 0 0" > text }
            if (kind == 2) { print "take" > script; print "taken " r + 1 > text }
            if (kind == 3) { print "done " r + 1 > script; print "answer " r + r + 1 > text }
            if (kind == 4) { print "acquire 0" > script; print "epoch 1 view 0 0 0" > text }
        }
    }'
}

# A script of each number of accepted steps up to 300 is answered whole.
each_number_of_steps() {
    local steps
    for steps in {0..300}; do
        rounds "$steps"
        answers "$room/script" "$room/expected" 0 run || { echo "at $steps steps"; return 1; }
    done
}

# The slow form answers 1,100 steps.
many_slow_steps() {
    rounds 1100
    answers "$room/script" "$room/expected" 0 slow
}

# The longest list of pending actions: 64 bumps, of the greatest tags.
longest_pending() {
    awk -v script="$room/script" -v text="$room/expected" 'BEGIN {
        print "config 4 256 64 64" > script
        print "opened" > text
        for (c = 1; c <= 64; c++) {
            print "bump " 935 + c > script
            print "ticket " c > text
            pending = pending " " c ":user:" 935 + c
        }
        print "pending" > script
        print "pending" pending > text
    }'
    answers "$room/script" "$room/expected" 0 run && answers "$room/script" "$room/expected" 0 slow
}

# The longest lists of frames: 256 pages, open, then sealed, then flushed, in order.
longest_frames() {
    awk -v script="$room/script" -v text="$room/expected" '
        function frames(state,   line, p) {
            line = "frames"
            for (p = 0; p < 256; p++) line = line " " state ":" p
            print "frames" > script
            print line > text
        }
        BEGIN {
            print "config 4 256 64 64\nacquire 0" > script
            print "opened\nepoch 1 view 0 0 0" > text
            for (p = 0; p < 256; p++) { print "alloc 0 4" > script; print "at " 4 * p > text }
            frames("open")
            print "raise 1024\nsettle\nrefresh 0\ntake\ndone 1" > script
            print "read_only 1024\nticket 1\nepoch 2 view 1024 0 1024\ntaken 1\nsafe_read_only 1024" > text
            frames("sealed")
            for (p = 0; p < 256; p++) {
                print "flush take\nflush done " p " ok" > script
                print "page " p "\nflushed " 4 * (p + 1) > text
            }
            frames("flushed")
        }'
    answers "$room/script" "$room/expected" 0 run && answers "$room/script" "$room/expected" 0 slow
}

# Opens these sizes in both forms, where the last slot fills a page and has its last word.
opens() {
    local page_size="$1" last_slot="$(($3 - 1))" last_word="$(($1 - 1))" greatest=18446744073709551615
    printf '%s\n' "config $*" "acquire $last_slot" "alloc $last_slot $page_size" \
        "write $last_slot $last_word $greatest" "read $last_slot $last_word" > "$room/script"
    printf '%s\n' opened 'epoch 1 view 0 0 0' 'at 0' written "value $greatest" > "$room/expected"
    answers "$room/script" "$room/expected" 0 run && answers "$room/script" "$room/expected" 0 slow
}

# Each number of words, frames, slots and places opens once, and the greatest of all together.
each_size_opens() {
    local n
    for n in 4 8 16 32 64 128 256 512 1024 2048 4096; do
        opens "$n" 2 2 2 || { echo "at pages of $n words"; return 1; }
    done
    for n in {2..256}; do
        opens 4 "$n" 2 2 || { echo "at $n frames"; return 1; }
    done
    for n in {1..64}; do
        opens 4 2 "$n" "$n" || { echo "at $n slots and $n places"; return 1; }
    done
    opens 4096 256 64 64
}

check "each number of steps up to 300" each_number_of_steps
check "1,100 steps by slow" many_slow_steps
check "64 pending actions" longest_pending
check "256 frames" longest_frames
check "each size" each_size_opens
