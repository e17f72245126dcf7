#!/usr/bin/env bash
# Each misuse/*.txt is a small file of Rattle that uses the library, with the lines of a right use marked - and those of a
# misuse marked +. The right use must be proved, and the misuse must not compile; the error that it must give stands below.
set -u
root=$(cd "$(dirname "$0")/.." && pwd)
copy=$(mktemp -d)
trap 'rm -rf "$copy"' EXIT
cp -r "$root/crates" "$root/crates.txt" "$copy/"
cd "$copy" || exit 1
mkdir -p crates/misuse/src crates/misuse/specs crates/misuse/proofs
: > crates/misuse/specs/Lib.antt
: > crates/misuse/proofs/Lib.antt
echo 'misuse: stream transform sink consume fallible script' >> crates.txt

declare -A error=(
    [poll-after-done]='borrow-e0382'
    [poll-held-stream]='borrow-e0382'
    [poll-inside-adapter]='private-field'
    [unchecked-script]='private-field'
)

checked() {
    (cd crates/misuse && rt check) > "$1" 2>&1
}

bad=0
for file in "$root"/misuse/*.txt; do
    name=$(basename "$file" .txt)
    sed -n 's/^[ -]//p' "$file" > crates/misuse/src/lib.rt
    if ! checked right.log; then
        echo "misuse $name: its right use is refused"; tail -n 20 right.log; bad=1; continue
    fi
    sed -n 's/^[ +]//p' "$file" > crates/misuse/src/lib.rt
    if checked wrong.log; then
        echo "misuse $name: NOT REFUSED"; bad=1
    elif grep -qF "error[${error[$name]:-none}]" wrong.log; then
        echo "misuse $name: does not compile, as it must not (${error[$name]})"
    else
        echo "misuse $name: refused, but not with ${error[$name]:-an error that is listed}"; tail -n 20 wrong.log; bad=1
    fi
done
exit $bad
