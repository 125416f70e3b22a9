# Each edit fits: its name stands once, its texts do in their files, and the gate tries those that scripts/wrong_bodies
# names. A wrong body that no edit can have is a test there, or a file of calls that can't wait.

check "the edits" "$scripts/edits"

# Whether a wrong body stands there: stands WORDS..
stands() {
    local crates="$scripts/../crates"
    case "$1" in
        test) grep -q "^fn $3(" "$crates/$2"/src/*.rt ;;
        without-wait) [ -e "$crates/$2" ] && ! grep -q Wait "$crates/$2" ;;
    esac
}

while IFS=': ' read -r name place; do
    # The words of a place are apart by blanks.
    check "wrong body $name" stands $place
done < <(grep -E '^[a-z_0-9]+: (test|without-wait) ' "$scripts/wrong_bodies")
