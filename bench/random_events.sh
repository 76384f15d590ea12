#!/bin/sh
# Runs the plain model of the engine beside 100,000 random events of its core. A program that `rt ci` or an earlier run left is
# taken where it is newer than every source. Else it is built: that proves every crate that it stands on first.
crates=$(cd "$(dirname "$0")/../crates" && pwd)
built=$crates/random_events/out/random_events
newer=new
if [ -x "$built" ]; then
    newer=$(find "$crates/../crates.txt" "$crates" -name out -prune -o -type f -newer "$built" -print | head -n 1)
fi
if [ -n "$newer" ]; then
    log=$(mktemp)
    (cd "$crates/random_events" && rt run >"$log" 2>&1) || { cat "$log"; exit 1; }
    rm -f "$log"
fi
"$built" each | python3 "$crates/../bench/plain_engine.py" "$crates/random_events/stdout"
