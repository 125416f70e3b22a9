# The sizes of docs/GATE.md are those of the crates. Where they are old: scripts/sizes check | git apply

check "the sizes of docs/GATE.md" "$scripts/sizes" check
