# Both forms, and the fast one over both tables of epochs, write the same text of long scripts. A fixed generator makes
# their lines, one after another. It asks the program for the status before each, so that pages go on and most kinds of
# refusals come too.

# The beginnings of the lines that the texts are to have, together.
beginnings=(opened "epoch " left "ticket " "bumped " "taken " "answer " "safe_read_only " "closed " "read_only " "head " "at "
    "view " written "value " "page " "flushed " "freed " "status " pending "frames "
    "fault "{1,2,3,4,5,7,8,9,10,11,12,13,14,15,17,18,19,20,21,22,23,24}" ")

# Sets n to a number below $1, by a linear congruential generator, and to 0 for 0.
below() {
    random="$((random * 6364136223846793005 + 1442695040888963407))"
    n="$(((random >> 33 & 0x7fffffff) % ($1 > 0 ? $1 : 1)))"
}

# Sets n to a number near $1, at most 2 above or below it.
near() {
    below 5
    n="$(($1 + n < 2 ? 0 : $1 + n - 2))"
}

# Sets t to a slot, and now and then to the number behind the last.
slot() {
    below 12
    if [ "$n" = 0 ]; then
        t="$slots"
    else
        below "$slots"
        t="$n"
    fi
}

# Sends a line to the program and sets reply to its answer.
ask() {
    echo "$1" >&"$to" && read -r -t 10 reply <&"$from"
}

# Asks for the status, and sets where the script stands.
look() {
    ask status || return
    read -r _ _ epoch _ safe _ pending _ taken _ closed _ head _ flushed _ safe_read_only _ read_only _ tail <<< "$reply"
}

# Sets line to a step of the epochs and their actions.
action() {
    slot
    below 16
    case "$n" in
        0 | 1) line="acquire $t" ;;
        2) line="release $t" ;;
        [3-6]) line="refresh $t" ;;
        # The tags from 1000 on have no job.
        7) below 60 && line="bump $((n < 50 ? n : n + 950))" ;;
        8) line=settle ;;
        9) line=close ;;
        1[0-2]) line=take ;;
        13) below 2 && line="$([ "$n" = 0 ] && echo bare || echo "refresh $t")" ;;
        *) near "$last_taken" && line="done $n" ;;
    esac
}

# Sets line to a step of the offsets and the words.
word() {
    slot
    below 12
    local last="$((tail > 0 ? tail - 1 : 0))" near_read_only
    case "$n" in
        0) line="raise $tail" ;;
        1) near "$tail" && line="raise $n" ;;
        2 | 8) line="shift $flushed" ;;
        3) below "$((2 * page_size))" && line="shift $((head + n))" ;;
        4)
            near "$read_only"
            near_read_only="$n"
            near "$head" && line="look $t $near_read_only $n"
            ;;
        5) near "$last" && printf -v line 'write %d %d %u' "$t" "$n" "$random" ;;
        6) near "$head" && line="read $t $n" ;;
        7) near "$last" && line="read $t $n" ;;
        *) below "$((page_size + 2))" && line="alloc $t $n" ;;
    esac
}

# Sets line to a step of the pages.
page_step() {
    local first="$((flushed / page_size))" last_closed="$((closed / page_size > 0 ? closed / page_size - 1 : 0))"
    below 6
    case "$n" in
        0 | 1) line="flush take" ;;
        2)
            below 2
            first="$((first + n))"
            below 4 && line="flush done $first $([ "$n" = 0 ] && echo failed || echo ok)"
            ;;
        3 | 4) line="clean take" ;;
        *) below "$frames" && line="clean done $((last_closed > n ? last_closed - n : 0))" ;;
    esac
}

# Sets line to a step by which the pages go on from where they are.
next_of_pages() {
    slot
    if ((in_hand > 0)); then
        line="done $in_hand"
    elif ((pending > 0)); then
        # The front is above the last ticket taken; a slot that moves on may make it safe.
        below 3
        line="refresh $t"
        ((safe <= last_taken || n == 0)) || line=take
    elif ((read_only < tail)); then
        below 2
        line="raise $tail"
        ((n == 0)) || printf -v line 'write %d %d %u' "$t" "$((tail - 1))" "$random"
    elif ((safe_read_only < read_only)); then
        line=settle
    elif ((head < flushed)); then
        line="shift $flushed"
    elif ((closed < head)); then
        line=close
    else
        below 6
        case "$n" in
            0) line="flush take" ;;
            1) line="flush done $((flushed / page_size)) ok" ;;
            2) line="clean take" ;;
            3) line="alloc $t $((page_size - 1))" ;;
            *)
                below "$frames"
                line="clean done $((closed / page_size > n + 1 ? closed / page_size - n - 1 : 0))"
                ;;
        esac
    fi
    return 0
}

# Sets line to the next line.
next_line() {
    below 20
    case "$n" in
        0)
            local queries=(status pending frames)
            below 3
            line="${queries[$n]}"
            ;;
        [1-9] | 10 | 11) next_of_pages ;;
        1[2-4]) action ;;
        1[5-7]) word ;;
        *) page_step ;;
    esac
}

# A script of 1,000 lines with these sizes has one text in both forms and over both tables, and that is what was
# answered line by line.
same_text() {
    local line="config $*" n t reply epoch safe pending taken closed head flushed safe_read_only read_only tail
    local page_size="$1" frames="$2" slots="$3" in_hand=0 last_taken=0 random=1 made=0
    coproc talk { exec timeout 100 "$program" run; }
    local pid="$talk_PID" to="${talk[1]}" from="${talk[0]}"
    : > "$room/script" > "$room/expected"
    while ask "$line"; do
        echo "$line" >> "$room/script"
        echo "$reply" >> "$room/expected"
        case "$reply" in
            taken*) in_hand="${reply#taken }" last_taken="$in_hand" ;;
            answer* | safe_read_only* | closed*) [ "$line" != "done $in_hand" ] || in_hand=0 ;;
        esac
        look || break
        made="$((made + 1))"
        [ "$made" -lt 1000 ] || break
        next_line
    done
    kill "$pid" || true
    wait "$pid" || true
    cat "$room/expected" >> "$room/texts"
    [ "$made" = 1000 ] || { echo "no answer to '$line'"; return 1; }
    ((tail / page_size >= 3 * frames)) || { echo "only $((tail / page_size)) pages"; return 1; }
    answers "$room/script" "$room/expected" 0 run && answers "$room/script" "$room/expected" 0 slow || return
    program="$small" answers "$room/script" "$room/expected" 0 scan
}

# The texts so far have all of the beginnings.
have_each_beginning() {
    local beginning
    for beginning in "${beginnings[@]}"; do
        grep -q "^$beginning" "$room/texts" || { echo "no line begins with '$beginning'"; return 1; }
    done
}

check "both forms, 4 2 2 1" same_text 4 2 2 1
check "both forms, 4 2 3 4" same_text 4 2 3 4
check "both forms, 8 3 4 2" same_text 8 3 4 2
check "both forms, each kind of answer" have_each_beginning
