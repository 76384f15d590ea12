#!/bin/sh
# Runs the proved program on the scripts of this folder, and compares what it prints with what has to come. A program
# that `rt ci` or an earlier run left is taken where it is newer than every source. Else it is built: that proves every
# crate that it stands on first, which takes some minutes.
here=$(cd "$(dirname "$0")" && pwd)
crates=$here/../crates
built=$crates/glide_program/out/glide_program
newer=new
if [ -x "$built" ]; then
    newer=$(find "$here/../crates.txt" "$crates" -name out -prune -o -type f -newer "$built" -print | head -n 1)
fi
if [ -n "$newer" ]; then
    log=$(mktemp)
    (cd "$crates/glide_program" && rt run >"$log" 2>&1) || { cat "$log"; exit 1; }
    rm -f "$log"
fi
cd "$here" || exit 1
failed=0

# A script, the name of what has to come, and the program's words.
run() {
    script=$1
    name=$2
    shift 2
    echo "$script.script${*:+ with }$*:"
    "$built" "$@" <"$script.script" >"$name.printed"
    echo "(status $?)" >>"$name.printed"
    cut -c1-180 "$name.printed"
    cmp "$name.printed" "$name.out" || failed=1
    rm -f "$name.printed"
}

run scroll scroll --stats
run scroll scroll-without-memory --memory 0 --stats
run scroll scroll-without-pool --memory 0 --pool 0 --stats
run memory memory --stats
for name in pictures failures sizes views; do
    run "$name" "$name"
done
echo "with a word that is refused:"
printed=$("$built" --nonsense <pictures.script; echo "(status $?)")
echo "$printed"
[ "$printed" = "glide: bad usage
(status 2)" ] || failed=1
echo "a picture to look at: out/gradient.ppm"
mkdir -p ../out
printf 'load large gradient 1 256 256 fit argb\ndump large\n' | "$built" | python3 pixels_to_ppm.py 256 256 >../out/gradient.ppm
[ "$(wc -c <../out/gradient.ppm)" -eq 196623 ] || failed=1
exit $failed
