#!/bin/sh
# more_edits.sh [NAME..]: tries the must-fail edits that the gate leaves out, edits/NAME/*.edit, those of the named crates or
# all: the prover has to refuse each. They are tried in a copy of the tree, which takes the built libraries along and is
# removed in the end; nothing is written here. The last line is `more edits: N passed, M failed`.
# Status: 0 where each is refused, 1 where one isn't, or a name has none.
cd "$(dirname "$0")/.." || exit 1
if [ $# -eq 0 ]; then
    cd edits || exit 1
    set -- *
    cd ..
fi
for name in "$@"; do
    [ -d "edits/$name" ] || { echo "more_edits.sh: $name has no edits in edits/" >&2 && exit 1; }
done
room=$(mktemp -d) || exit 1
trap 'rm -rf "$room"' EXIT
trap 'exit 1' HUP INT TERM

cp -p crates.txt HANDLES "$room" || exit 1
for crate in crates/*/; do
    mkdir -p "$room/$crate/out" || exit 1
    for part in src specs proofs out/rlib; do
        [ ! -d "$crate$part" ] || cp -Rp "$crate$part" "$room/$crate$part" || exit 1
    done
done
for name in "$@"; do
    cp -Rp "edits/$name" "$room/crates/$name/must-fail" || exit 1
done

(cd "$room" && rt must-fail "$@") | tee "$room/said"
tried=$(find "$room"/crates/*/must-fail -name '*.edit' | wc -l)
passed=$(grep -c ': refused, as it must be' "$room/said")
echo "more edits: $passed passed, $((tried - passed)) failed"
[ "$passed" -eq "$tried" ]
