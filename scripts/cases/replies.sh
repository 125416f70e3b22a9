# Who sends one line at a time gets its reply before the next is sent.

# Sends the lines of an example in one form, and awaits each reply.
replies_come_at_once() {
    local of="$scripts/../examples/$1" line wanted reply status=0
    coproc talk { exec timeout 60 "$program" "$2"; }
    local pid="$talk_PID" to="${talk[1]}" from="${talk[0]}"
    while read -r line <&3 && read -r wanted <&4; do
        echo "$line" >&"$to"
        if ! read -r -t 10 reply <&"$from" || [ "$reply" != "$wanted" ]; then
            echo "$2: to '$line' it answered '${reply:-}' within 10 seconds, not '$wanted'"
            kill "$pid"
            return 1
        fi
    done 3< "$of.script" 4< "$of.expected"
    exec {to}>&-
    wait "$pid" || status=$?
    [ "$status" = 0 ]
}

both_reply_at_once() {
    replies_come_at_once fuzzy_region_settled run && replies_come_at_once fuzzy_region_settled slow
}

check "replies at once" both_reply_at_once
