# How far a proof of many crates is, and about how many minutes are left: scripts/prove and scripts/check source this. Each crate has a
# weight (scripts/weights), the seconds that its proof took one core of one machine. What was proved so far tells how long this machine
# takes for such a second; what is left takes as long as its work by all jobs, or as its longest chain of crates.

declare -A weights=()
while read -r name seconds; do
    weights["$name"]="$seconds"
done < <(grep -v '^#' "$top/scripts/weights")
declare -A uses=() proved=() left=() behind=() is_begun=()
order=()
all=0

# Begins with nothing proved: progress_begins JOBS CRATE.., each crate behind those that it stands on.
progress_begins() {
    local name rest below i
    at_once="$1"
    shift
    order=("$@")
    while IFS=: read -r name rest; do
        [ -z "$name" ] || uses["${name%% *}"]="$rest"
    done < "$top/crates.txt"
    for name in "${order[@]}"; do
        left["$name"]="${weights[$name]:-$(weight_by_lines "$name")}"
        all="$((all + left[$name]))"
    done
    # The longest chain of crates from each one up.
    for ((i = ${#order[@]} - 1; i >= 0; i--)); do
        name="${order[$i]}"
        behind["$name"]="$((${behind[$name]:-0} + left[$name]))"
        for below in ${uses[$name]}; do
            [ "${behind[$below]:-0}" -ge "${behind[$name]}" ] || behind["$below"]="${behind[$name]}"
        done
    done
}

# The crates that aren't begun and stand on proved ones alone, those with the longest chain above them first.
progress_ready() {
    local name below
    for name in "${order[@]}"; do
        [ -z "${is_begun[$name]:-}" ] || continue
        for below in ${uses[$name]}; do
            [ "${left[$below]:-0}" = 0 ] || continue 2
        done
        echo "${behind[$name]} $name"
    done | sort -rn | cut -d ' ' -f 2
}

# Takes it that a crate's proof has begun.
progress_begun() {
    is_begun["$1"]=1
}

# The weight of a crate that has none yet, by the lines of its sources.
weight_by_lines() {
    find "$top/crates/$1" -name out -prune -o -name '*.rt' -exec cat {} + -o -name '*.antt' -exec cat {} + |
        awk 'END { print 20 + int(NR / 30) }'
}

# Takes it that a crate is proved, of which this share in percent was proved now and not kept from before.
progress_proved() {
    proved["$1"]="$((left[$1] * $2 / 100))"
    left["$1"]=0
}

# The share of the whole that is proved, in percent.
progress_percent() {
    local name sum=0
    for name in "${order[@]}"; do
        sum="$((sum + left[$name]))"
    done
    echo "$((100 * (all - sum) / all))"
}

# The seconds of one core until crates of these weights are proved: seconds_of left, or seconds_of proved.
seconds_of() {
    local -n of="$1"
    local -A ends=()
    local name below end sum=0 longest=0
    for name in "${order[@]}"; do
        end=0
        for below in ${uses[$name]}; do
            end="$((${ends[$below]:-0} > end ? ends[$below] : end))"
        done
        ends["$name"]="$((end + ${of[$name]:-0}))"
        longest="$((ends[$name] > longest ? ends[$name] : longest))"
        sum="$((sum + ${of[$name]:-0}))"
    done
    echo "$((sum / at_once > longest ? sum / at_once : longest))"
}

# About how many minutes are left after so many seconds, at the pace of what was proved; nothing where that was little.
progress_minutes() {
    local taken
    taken="$(seconds_of proved)"
    ((taken < 200)) || echo "$((($(seconds_of left) * $1 / taken + 59) / 60))"
}
