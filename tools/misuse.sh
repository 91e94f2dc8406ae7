#!/bin/sh
# Misuses of a branch that the compiler has to refuse: letting one go, and giving one back twice. Each edit in crates/branch_use/misuse/ is
# applied to a copy of that program, and the compiler must refuse the copy with the error that the edit expects. (A must-fail edit has to reach
# the prover; these do not get so far.) The program as it stands must be taken.
cd "$(dirname "$0")/.." || exit 2
crate=branch_use
work=$(mktemp -d) || exit 2
trap 'rm -rf "$work"' EXIT

# A copy of the sources alone.
cp crates.txt "$work/" && tar -cf - --exclude=out --exclude=target crates | tar -xf - -C "$work" || exit 2

# What the compiler says of the program in the copy, before any proof.
compile() {
    (cd "$work/crates/$crate" && rt try 2>&1)
}

# Applies the edit file $1 to the copy: its 'old:' text must stand there once.
apply() {
    OLD=$(sed -n 's/^old: //p' "$1") NEW=$(sed -n 's/^new: //p' "$1") awk '
        { text = text $0 "\n" }
        END {
            at = index(text, ENVIRON["OLD"])
            if (!at) exit 3
            rest = substr(text, at + length(ENVIRON["OLD"]))
            if (index(rest, ENVIRON["OLD"])) exit 4
            printf "%s%s%s", substr(text, 1, at - 1), ENVIRON["NEW"], rest
        }' "crates/$crate/src/main.rt" >"$work/crates/$crate/src/main.rt"
}

bad=0
if compile | grep -q 'error\['; then
    echo "misuse: the program as it stands is refused"
    bad=1
fi
for edit in crates/$crate/misuse/*.edit; do
    want=$(sed -n 's/^expect: //p' "$edit")
    if ! apply "$edit"; then
        echo "misuse $edit: BAD EDIT: its text does not stand once in the program"
        bad=1
    elif compile | grep -qF "$want"; then
        echo "misuse $edit: refused, as it must be ($want)"
    else
        echo "misuse $edit: NOT REFUSED with '$want'"
        bad=1
    fi
done
exit $bad
