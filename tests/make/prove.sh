#!/bin/bash
# Has scripts/prove.sh prove the crates of crates.txt by a stand-in for `rt`, and looks at what it runs, shows and leaves.
#   tests/make/prove.sh
# The stand-in asks for the libraries of all crates below, waits up to three seconds for a third crate to begin, and keeps something
# in out/ as `rt` does. It proves nothing.
set -eum
cd "$(dirname "$0")/../.."
scratch=$(mktemp -d); trap 'rm -rf "$scratch"' EXIT
crates=$(sed -n 's/^\([a-z_]*\):.*/\1/p' crates.txt)
mkdir "$scratch/scripts"
cp crates.txt HANDLES "$scratch"
cp scripts/prove.sh "$scratch/scripts"
for crate in $crates; do mkdir -p "$scratch/crates/$crate/src"; touch "$scratch/crates/$crate/src/lib.rt"; done
mv "$scratch/crates/braildesk/src/lib.rt" "$scratch/crates/braildesk/src/main.rt"
cat > "$scratch/rt" << 'END'
#!/bin/bash
name=${PWD##*/}
echo "begin $name" >> "$LOG"
for other in ../*/; do
    other=${other%/}
    [ "$other" = "../$name" ] || [ -e "$other/out/rlib/library" ] || { echo "${other#../} has no library"; exit 1; }
done
echo "what $1 says of $name"
[ "${FAILS-}" != "$name" ] || { echo "$name is not proved"; exit 1; }
sleep "${PAUSE:-0}"
for ((n = 0; n < 30; n++)); do [ "$(grep -c "^begin" "$LOG")" -lt 3 ] || break; sleep 0.1; done
mkdir -p out/rlib out/kept
case $1 in lib) touch out/rlib/library ;; run) touch "out/$name" ;; esac
echo "end $name" >> "$LOG"
END
chmod +x "$scratch/rt"
export LOG=$scratch/log RT=$scratch/rt JOBS=2
wrong() {
    echo "tests/make/prove.sh: $1" >&2
    exit 1
}
sorted() { tr ' ' '\n' | sort; }
# nothing runs any more (it would hold the lock of build/), what each crate keeps is in its own folder, and no room is left
is_left_well() {
    flock -n "$scratch/build" true || wrong 'a proof still runs'
    for crate in "$@"; do [ -d "$scratch/crates/$crate/out/kept" ] || wrong "what is kept of $crate is lost"; done
    [ -z "$(ls "$scratch/build")" ] || wrong 'a room is left in build/'
}

# each crate once, after all those below it, and two side by side
"$scratch/scripts/prove.sh" 2> "$scratch/shown" || { cat "$scratch/shown" >&2; wrong 'not all is proved'; }
[ "$(sed -n 's/^end //p' "$LOG" | sort)" = "$(sorted <<< "$crates")" ] || wrong 'not each crate is proved once'
[ "$(sed 's/.*\] //' "$scratch/shown" | sort)" = "$(sorted <<< "$crates")" ] || wrong 'not each crate is shown once'
most=$(awk '/^begin/ && ++n > most { most = n } /^end/ { n-- } END { print most }' "$LOG")
[ "$most" -eq 2 ] || wrong "$most crates side by side, in place of 2"
[ -e "$scratch/crates/braildesk/out/braildesk" ] || wrong 'the program is not built'
# shellcheck disable=SC2086
is_left_well $crates
echo "ok  $(wc -w <<< "$crates") crates, each after those below it"

# a crate that isn't proved: what is said of it is shown and no more, the others are stopped, and all that was kept is there
rm "$LOG"
status=0
PAUSE=4 FAILS=louis_table "$scratch/scripts/prove.sh" > "$scratch/said" 2> "$scratch/shown" || status=$?
[ $status -eq 1 ] || wrong "status $status in place of 1"
grep -v '^\[' "$scratch/shown" | diff - <(printf '%s\n' 'what lib says of louis_table' 'louis_table is not proved') >&2 ||
    wrong 'something else is shown (< shown, > wanted)'
! grep -q 'end desk_parts\|begin louis_translate' "$LOG" || wrong 'the others are not stopped'
# shellcheck disable=SC2086
is_left_well $crates
echo 'ok  a crate that is not proved'

# an interrupt
rm "$LOG"
# SIGINT ends it also where the shell that runs this ignores the signal
PAUSE=30 env --default-signal=INT "$scratch/scripts/prove.sh" 2> "$scratch/shown" &
until [ "$(grep -c begin "$LOG" 2> /dev/null)" = 2 ]; do sleep 0.1; done
kill -INT $!
status=0
wait $! || status=$?
[ $status -eq 130 ] || wrong "status $status in place of 130"
# shellcheck disable=SC2086
is_left_well $crates
echo 'ok  an interrupt'
