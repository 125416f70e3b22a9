# The part of the first program that README.md shows is that of its crate. Where it is old:
# scripts/shown/first_program.py . check | git apply

check "the first program of README.md" python3 -B "$scripts/shown/first_program.py" "$scripts/.." check
