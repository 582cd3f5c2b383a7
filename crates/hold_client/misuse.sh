#!/bin/sh
# Tries the two misuses of a hold on a copy of the repository: each must be refused by the borrow checker, with its own error.
# They stop before the prover, so they cannot be edits in must-fail/.
set -eu
root=$(cd "$(dirname "$0")/../.." && pwd)
copy=$(mktemp -d)
trap 'rm -rf "$copy"' EXIT
tar -C "$root" --exclude=out -cf - crates crates.txt | tar -C "$copy" -xf -
cd "$copy"

refused() { # NAME TEXT ERROR
    cp "$root/crates/hold_client/src/read.rt" crates/hold_client/src/read.rt
    OLD='node.give_back(hold);' NEW=$2 awk '
        { at = index($0, ENVIRON["OLD"]) }
        at { $0 = substr($0, 1, at - 1) ENVIRON["NEW"] substr($0, at + length(ENVIRON["OLD"])) }
        { print }' "$root/crates/hold_client/src/read.rt" >crates/hold_client/src/read.rt
    if (cd crates/hold_client && rt check) >said 2>&1; then
        echo "$1: NOT refused"
        exit 1
    fi
    if ! grep -q "$3" said; then
        echo "$1: refused, but not as $3:"
        tail -n 20 said
        exit 1
    fi
    echo "$1: refused as $3"
}

refused 'a hold vanishes' 'if answer.is_ok() { node.give_back(hold); }' linear-value-let-go
refused 'a hold is returned twice' 'node.give_back(hold); node.give_back(hold);' borrow-e0382
