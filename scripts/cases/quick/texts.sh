# Each link of the pages leads to a file or a folder of the repository, and each page is linked from another.

links_lead() {
    python3 -B "$scripts/shown/links.py" "$scripts/.."
}

check "the links of the pages" links_lead

# The faults have one number and one name in every language: those of hl_model. Where tables of the headers or of the
# Rust crate are old: scripts/shown/faults.py . | git apply
check "the faults of all languages" python3 -B "$scripts/shown/faults.py" "$scripts/.."
