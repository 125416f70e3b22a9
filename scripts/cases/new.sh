# A project of one's own, as ./hl new makes it: its program runs, its edit can be applied, its page names what is there,
# and a folder that isn't empty is left alone.

top="$(cd "$scripts/.." && pwd)"
project="$room/project"

makes_a_project() {
    "$top/hl" new "$project" && (cd "$project/crates/first_log" && rt try > "$room/tail") && cmp "$room/tail" "$project/crates/first_log/stdout"
}

# The text that the project's edit replaces stands once in the file that it names.
edit_fits() {
    local edit file old
    for edit in "$project"/crates/first_log/must-fail/*.edit; do
        file="$(sed -n 's/^file: //p' "$edit")"
        old="$(sed -n 's/^old: //p' "$edit")"
        [ "$(grep -cF -- "$old" "$project/crates/first_log/$file")" = 1 ] || return
    done
}

# Each file that its page names is there.
has_what_it_names() {
    local file
    while read -r file; do
        [ -e "$project/$file" ] || { echo "$file isn't there"; return 1; }
    done < <(grep -o '](crates/[^)]*)' "$project/README.md" | tr -d '()]')
}

# What a check that was cut off leaves of a crate, a folder without a stamp, is no proof.
counts_what_was_cut_off() {
    local tree="$room/tree"
    mkdir -p "$tree"
    (cd "$top" && find hl HANDLES crates.txt .gitignore scripts packaging crates -name out -prune -o -type f -print0 |
        xargs -0 cp --parents -t "$tree") && mkdir -p "$tree/crates/hl_model/out/rlib" || return
    "$tree/hl" new "$room/unproved" 2>&1 | grep -E '^hl: ([0-9]+) of the \1 crates that hl is'
}

leaves_what_is_there() {
    local status=0
    mkdir -p "$room/full" && echo mine > "$room/full/file"
    "$top/hl" new "$room/full" || status=$?
    [ "$status" = 2 ] && [ "$(ls -A "$room/full")" = file ] && [ "$(cat "$room/full/file")" = mine ]
}

if has_all 'a project of one'"'"'s own' rt; then
    check 'a new project runs' makes_a_project
    check 'the edit of a new project fits' edit_fits
    check 'a new project has what its page names' has_what_it_names
    check 'a check that was cut off is no proof' counts_what_was_cut_off
    check 'a folder that is not empty is no project' leaves_what_is_there
fi
