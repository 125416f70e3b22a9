# Whether a crate was proved, and whether what is built of it is as new as its sources: hl and its scripts source this.

# Whether a check of this crate has ended well here: it leaves a stamp at its end. One that was cut off leaves the folder.
is_proved() {
    [ -e "$top/crates/$1/out/rlib/stamp" ]
}

# Whether a source of this crate, or of one below it, is newer than a file: is_older FILE CRATE.
is_older() {
    local crate folders=()
    for crate in $("$top/scripts/below" "$2"); do
        folders+=("$top/crates/$crate")
    done
    [ -n "$(find "$top/crates.txt" "${folders[@]}" \( -name out -o -name must-fail -o -name edits \) -prune -o \
        -type f -newer "$1" -print -quit)" ]
}
