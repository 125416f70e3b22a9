# Each script of examples/ has the text that stands beside it, in both forms. NAME.args has further words for run, such
# as --flush, which slow has none of. So have those of data/, each with a line that is no step.

# All these scripts.
texted=("$scripts"/../examples/*.script "$scripts"/cases/data/*.script)

# The status that a text ends with: 2 where its last line is no step.
status_of() {
    case "$(tail -n 1 "$1")" in
        *': not a step') echo 2 ;;
        *) echo 0 ;;
    esac
}

for script in "${texted[@]}"; do
    of="${script%.script}"
    name="${of##*/}"
    status="$(status_of "$of.expected")"
    words=()
    if [ -e "$of.args" ]; then
        mapfile -t words < "$of.args"
    else
        check "$name by slow" answers "$script" "$of.expected" "$status" slow
    fi
    check "$name by run" answers "$script" "$of.expected" "$status" run "${words[@]}"
done
