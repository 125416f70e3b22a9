# Rooms, in which runs of rt go on side by side: scripts/prove and scripts/check source this. A run of rt holds the folders
# of its crate and of all below it, so two runs over one tree wait for each other. In a room a crate and those below it
# lie as hard links, with the libraries that were built of these. What sources this sources scripts/built.sh before.

# How many jobs fit side by side: one a core, with 2.5 GB each.
jobs_at_once() {
    awk -v cores="$(nproc)" '
        /^MemAvailable:/ { fit = int($2 / 2500000) }
        END { print fit < 1 ? 1 : fit < cores ? fit : cores }' /proc/meminfo
}

# Lays out a crate's room: furnish ROOM CRATE.
furnish() {
    local crate part room="$1" crates="$top/crates"
    for crate in $("$top/scripts/below" "$2"); do
        mkdir -p "$room/crates/$crate/out"
        grep "^$crate[ :]" "$top/crates.txt" >> "$room/crates.txt"
        for part in src specs proofs; do
            [ ! -e "$crates/$crate/$part" ] || cp -al "$crates/$crate/$part" "$room/crates/$crate/$part"
        done
        ! is_proved "$crate" || cp -al "$crates/$crate/out/rlib" "$room/crates/$crate/out/rlib"
    done
    mkdir -p "$crates/$2/out"
    rm -rf "$room/crates/$2/out"
    cp -al "$crates/$2/out" "$room/crates/$2/out"
}
