# The program runs over a table of epochs that counts its slots. Over the one that scans them, which the small program
# runs for tests, each script has the same text.
for script in "${texted[@]}"; do
    of="${script%.script}"
    words=()
    [ ! -e "$of.args" ] || mapfile -t words < "$of.args"
    status="$(status_of "$of.expected")"
    program="$small" check "${of##*/} over the table that scans" \
        answers "$script" "$of.expected" "$status" scan "${words[@]}"
done
