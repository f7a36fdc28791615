#!/usr/bin/env bash
# Says in seconds what would fail the gate after an hour: a file that `rt fmt` would change, a wrong body that no longer
# fits the text, a module with the name of a library below it, a handle of std that HANDLES doesn't allow, and a symbolic
# link; and where docs/CALLS.md isn't what the contracts say, or docs/PROOFS.md what the heads of the lemmas do, where
# docs/PROMISES.md or README.md names a call or a clause that isn't there, where a crate of the checker names the linker's
# own layout, or, where mandoc is there, it complains of a man page. It works on a copy of the tree, committed or not, and
# changes nothing.
# usage: tools/quick_check.sh; the exit status is 1 where it finds something.
set -u

cd "$(dirname "${BASH_SOURCE[0]}")/.." || exit 2
copy="$(mktemp -d)" || exit 2
trap 'rm -rf "$copy"' EXIT
git ls-files -z --cached --others --exclude-standard -- crates crates.txt HANDLES |
    tar --create --null --files-from=- --ignore-failed-read 2>/dev/null | tar --extract --directory "$copy"

failed=0
find "$copy/crates" -mindepth 1 -maxdepth 1 -type d -print0 |
    xargs -0 -P 4 -I{} sh -c 'cd "{}" && rt fmt >/dev/null 2>&1 || { echo "rt fmt fails in $(basename "{}")"; exit 1; }' || failed=1
for crate in "$copy"/crates/*/; do
    name="$(basename "$crate")"
    for part in src specs proofs; do
        [ -d "$crate$part" ] || continue
        if ! diff -rq "crates/$name/$part" "$crate$part" >"$copy/changed"; then
            sed "s/^Files \(.*\) and .*/not laid out: \1/" "$copy/changed"
            failed=1
        fi
    done
done
tools/try_edits.py --only-read || failed=1
tools/module_names.py || failed=1
tools/promises.py --check || failed=1
tools/lemmas.py --check || failed=1
for crate in check_load check_link check_relocs check_stages check_places check_tables checker; do
    grep -rn 'elf_model\.specs\.Own\.' "$copy/crates/$crate" && failed=1
done
git ls-files --stage | sed -n 's/^120000 .*\t/a symbolic link: /p' | grep . && failed=1
grep -rnE '^use std::.*\b(Net|Processes|Threads|Wait)\b' --include='*.rt' "$copy/crates" && failed=1
if command -v mandoc >/dev/null; then
    (cd docs/man && mandoc -Tlint ./*.[0-9]) || failed=1
fi
exit "$failed"
