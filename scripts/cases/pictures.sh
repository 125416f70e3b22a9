# The pictures of docs/pictures are what the program answers to their scripts, and a crew's turn. Where one is old:
# scripts/pictures crates/hl_first/out/hl_first docs/pictures

drawn_as_committed() {
    local name kind of="$scripts/../docs/pictures"
    mkdir -p "$room/pictures"
    "$scripts/pictures" "$program" "$room/pictures" || return
    for name in address crew epochs page; do
        for kind in svg txt; do
            cmp "$of/$name.$kind" "$room/pictures/$name.$kind" || return
        done
    done
}

check "the pictures" drawn_as_committed
