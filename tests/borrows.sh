#!/usr/bin/env bash
# A frame lends its body and does not copy it, so nobody can keep the body beyond the frame.
#
# Makes a crate outside the repository, over a copy of afdx_frame, and has the toolchain read it
# twice: with a use of the body while the frame lives, which must be accepted, and with one that
# outlives the frame, which the borrow checker must refuse with its error of lifetimes.
set -euo pipefail

top=$(cd "$(dirname "$0")/.." && pwd)
work=$(mktemp -d)
trap 'rm -rf "$work"' EXIT

mkdir -p "$work/crates/afdx_frame" "$work/crates/lent/src"
cp -r "$top/crates/afdx_frame/src" "$top/crates/afdx_frame/specs" "$work/crates/afdx_frame/"
for folder in proofs out; do
    if [ -d "$top/crates/afdx_frame/$folder" ]; then
        cp -r "$top/crates/afdx_frame/$folder" "$work/crates/afdx_frame/"
    fi
done
printf 'afdx_frame:\nlent: afdx_frame\n' > "$work/crates.txt"

# Writes a function that takes the body of what the given block calls `kept`, and uses it behind.
write_crate() {
    cat > "$work/crates/lent/src/lib.rt" <<END
//! The body of a frame, lent.
#![tactic(auto)]

use afdx_frame::TapFrame;

/// How many bytes the body of a frame has.
pub fn body_len(frame: TapFrame) -> usize {
    let body = {
        let kept = $1;
        kept.view().body()
    };
    body.map_or(0, |bytes| bytes.len())
}
END
}

# Has the toolchain read the crate without proving it: its status, and what it said.
read_crate() {
    status=0
    said=$(cd "$work/crates/lent" && rt check --only= 2>&1) || status=$?
}

write_crate '&frame'
read_crate
if [ "$status" -ne 0 ]; then
    printf 'borrows: FAILED, a body used while its frame lives was refused:\n%s\n' "$said"
    exit 1
fi

write_crate 'frame'
read_crate
if [ "$status" -eq 0 ]; then
    printf 'borrows: FAILED, a body kept beyond its frame was accepted\n'
    exit 1
fi
# E0597: what is borrowed does not live long enough.
if ! refusal=$(grep -i 'error\[borrow-e0597\].*kept' <<< "$said"); then
    printf 'borrows: FAILED, a body kept beyond its frame was refused for another reason:\n%s\n' "$said"
    exit 1
fi
printf 'borrows: a body kept beyond its frame is refused: %s\n' "$refusal"
