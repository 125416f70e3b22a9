# What runs cases and counts them: scripts/test and scripts/quick source this. It makes a room for the cases' files.
scripts="$(cd "$(dirname "$0")" && pwd)"
room="$(mktemp -d)"
trap 'rm -rf "$room"' EXIT
passed=0
failed=0

# A case: its name, and the command that ends well where it passes. What a failed one wrote is shown.
check() {
    local name="$1"
    shift
    if "$@" > "$room/why" 2>&1; then
        passed="$((passed + 1))"
    else
        failed="$((failed + 1))"
        echo "FAILED $name"
        head -n 20 "$room/why"
    fi
}

# Ends a run: its last line counts the cases.
tell_cases() {
    echo "$passed passed, $failed failed"
    [ "$failed" = 0 ]
}
