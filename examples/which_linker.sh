# Says which program the examples run, and sets `linker` to its path; sourced by them, which set `root`, and `program` where
# that is another one than ld.
# shellcheck shell=sh
# shellcheck disable=SC2154
program=${program:-ld}
crate=$(echo "$program" | tr - _)
linker=$root/crates/$crate/out/$crate
if [ -x "$linker" ]; then
    echo "The linker is the proved program crates/$crate/out/$crate."
elif command -v rt >/dev/null; then
    echo "No proved program is at crates/$crate/out/$crate: this is the UNPROVED one, for a first look."
    echo "To get the proved one: cd crates/$crate && rt run"
    sh "$root/examples/unproved_programs.sh" "$program"
    linker=$root/out/unproved/$program
else
    echo "No proved program is at crates/$crate/out/$crate, and rt is not on PATH to compile the unproved one." >&2
    exit 2
fi
