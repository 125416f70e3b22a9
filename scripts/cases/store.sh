# The store of crates/hl_kv, whose records are many times what its frames hold: threads add in place, by copies and from
# the device, and each counter holds at the end what they added.

# stores WORDS..
stores() {
    local status=0
    timeout 60 "$kv" "$@" > "$room/text" 2> "$room/errors" || status=$?
    cat "$room/errors" "$room/text"
    [ "$status" = 0 ] && [ ! -s "$room/errors" ] && grep -q '^checked 100000 counters$' "$room/text" || return 1
    # Records were copied, and more pages written than the frames hold.
    awk '/ copies / { copies = $5; written = $7 } END { exit !(copies > 1000 && written > 8) }' "$room/text"
}

# Nothing is cut: on the device each word that one thread alone wrote is its newest write of the journal.
store_of_images() {
    timeout 60 "$kv" 4 0 --frames 8 --images > "$room/text" 2>&1 || { cat "$room/text"; return 1; }
    cat "$room/text"
    awk '/^checked [0-9]+ words of [0-9]+ images$/ { words = $2; images = $5 } END { exit !(words > 200000 && images > 50) }' \
        "$room/text"
}

# Words that it doesn't take: the line of its usage, and status 2.
store_refused() {
    local status=0
    "$kv" "$@" > "$room/text" 2> "$room/errors" || status=$?
    [ "$status" = 2 ] && [ ! -s "$room/text" ] && grep -q '^usage: hl_kv' "$room/errors"
}

# A number out of its range: its name and its range, and status 2.
store_out_of_range() {
    local status=0 told=$1
    shift
    "$kv" "$@" > "$room/text" 2> "$room/errors" || status=$?
    [ "$status" = 2 ] && [ ! -s "$room/text" ] && [ "$(cat "$room/errors")" = "hl_kv: $told" ]
}

# The least number of frames, or more than 8 MiB of them: each thread makes 4,096 operations.
store_of_frames() {
    [ "$("$kv" 2 0 --frames "$1")" = "checked 100000 counters" ]
}

check "a store that is evicted, each read compared" stores 1 2 --frames 8 --compare
check "a store that is evicted, four threads" stores 4 2 --frames 8
check "a store that is evicted, by Zipf" stores 4 2 --frames 8 --zipf --reads 20
check "a store's images and its journal" store_of_images
check "a store without words" store_refused
check "a store of an unknown option" store_refused 1 1 --key 5
check "a store of too many threads" store_out_of_range "threads: 1 to 1,024" 1025 1
check "a store of too few frames" store_out_of_range "frames: 2 to 65,536" 1 1 --frames 1
check "a store of two frames" store_of_frames 2
check "a store of more than 8 MiB in memory" store_of_frames 257
