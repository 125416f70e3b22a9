# The instructions of a small run of each benchmark job of one thread, beside the numbers of instructions.txt: a job that
# takes more than a tenth more fails. Who changes a number there says why in the commit.

counted=""

# The C library picks its copying by the processor, and counts differ by it: one way for all.
one_way=glibc.cpu.hwcaps=-AVX2,-AVX_Fast_Unaligned_Load,-ERMS,-FSRM,-AVX512VL,-AVX512F
one_way+=:glibc.cpu.x86_non_temporal_threshold=4294967296

# Counts a job's instructions; the number that stands there is told.
takes_no_more() {
    local job="$1" known="$2" count
    count="$(GLIBC_TUNABLES="$one_way" valgrind --tool=callgrind --callgrind-out-file=/dev/null \
        "$workloads" "$job" 1 small 2>&1 > "$room/text" | sed -n 's/.*Collected : \([0-9]*\)$/\1/p')"
    counted+=" $job ${count:-not counted},"
    echo "$job took ${count:-no} instructions; instructions.txt has $known"
    [ -n "$count" ] && ((count <= known + known / 10))
}

if has_all "the instructions of the benchmark's jobs" valgrind; then
    while read -r job known; do
        check "instructions of $job" takes_no_more "$job" "$known"
    done < "$scripts/cases/instructions.txt"
    echo "instructions:${counted%,}"
fi
