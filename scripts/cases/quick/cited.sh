# The modules of proofs that docs/MAP.md tells as cited by other crates are those. Where they are old:
# scripts/shown/cited_laws.py . check | git apply

check "the cited laws of docs/MAP.md" python3 -B "$scripts/shown/cited_laws.py" "$scripts/.." check
