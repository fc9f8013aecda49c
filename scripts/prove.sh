#!/bin/bash
# Proves the crates of crates.txt side by side, each once those that it stands on are proved, and builds the program. Those on which the
# longest chain of crates stands come first and have all processors, since the program has to wait for it. The others take what these
# leave: one that begins has all processors, or one fewer for each two that are proved beside it, since these end sooner or later. If a
# crate isn't proved, the others are stopped, and what `rt` wrote of it is shown.
#   scripts/prove.sh     JOBS (1): how many crates at a time; RT (rt): the toolchain's command
# Only one `rt` at a time works in the folder of a crate and in those of the crates below it. So each crate is proved in a room of its
# own under build/: copies of its texts and of those below it, and links to the libraries that were built of these. The folder out/,
# in which `rt` keeps what it has proved of the crate, moves to the room and back.
set -eum
cd "$(dirname "$0")/.."
rt=${RT:-rt} jobs=${JOBS:-1} rooms=build/rooms

# The crates of the list, and the crates that each uses.
crates=()
declare -A uses
while IFS=: read -r crate words; do
    crate=${crate%% *}
    crates+=("$crate")
    uses[$crate]=$words
done < <(sed 's/#.*//' crates.txt | grep :)
for crate in "${crates[@]}"; do
    own=()
    for word in ${uses[$crate]}; do [ -z "${uses[$word]+is}" ] || own+=("$word"); done
    uses[$crate]=${own[*]}
done

# How many crates stand on each one, one on the other, at most.
declare -A above=()
rise() { # CRATE HEIGHT
    local crate
    [ "${above[$1]:-0}" -lt "$2" ] && [ "$2" -le ${#crates[@]} ] || return 0
    above[$1]=$2
    for crate in ${uses[$1]}; do rise "$crate" $(($2 + 1)); done
}
for crate in "${crates[@]}"; do rise "$crate" 1; done

# The crates below each one that can start.
declare -A below=()
can_start() { # CRATE
    local crate
    for crate in ${uses[$1]}; do [ -n "${proved[$crate]-}" ] || return 1; done
    below[$1]=$(for crate in ${uses[$1]}; do echo "$crate ${below[$crate]}"; done | tr ' ' '\n' | sort -u)
}

enter_room() { # CRATE
    local room=$rooms/$1 crate text texts=()
    mkdir -p "$room"
    for crate in ${below[$1]} "$1"; do
        grep -E "^${crate}[ :]" crates.txt >> "$room/crates.txt"
        for text in "crates/$crate/"{src,specs,proofs,args,status}; do [ ! -e "$text" ] || texts+=("$text"); done
    done
    cp -Rp --parents HANDLES "${texts[@]}" "$room"
    for crate in ${below[$1]}; do
        exec 7< "crates/$crate"
        flock -s 7
        cp -al --parents "crates/$crate/out/rlib" "$room" 2> /dev/null || cp -a --parents "crates/$crate/out/rlib" "$room"
    done
    exec 7<&-
    [ ! -d "crates/$1/out" ] || mv "crates/$1/out" "$room/crates/$1"
}

leave_room() { # CRATE
    local out=$rooms/$1/crates/$1/out
    [ ! -d "$out" ] || [ -d "crates/$1/out" ] || mv "$out" "crates/$1"
    rm -rf "${rooms:?}/$1"
}

leave_rooms() {
    local room
    for room in "$rooms"/*/; do [ ! -d "$room" ] || leave_room "$(basename "$room")"; done
    rm -rf "$rooms"
}

prove() { # CRATE CHECKS NICENESS
    local rt=(nice -n "$3" "$rt")
    exec 9< "crates/$1"
    flock 9
    enter_room "$1"
    cd "$rooms/$1/crates/$1"
    if [ -e src/main.rt ]; then "${rt[@]}" run --jobs "$2" -- --help; else "${rt[@]}" lib --jobs "$2"; fi
}

# One run of this script at a time works in build/. It begins with what one that was killed left in its rooms.
mkdir -p build
exec 8< build
flock -n 8 || { echo 'Waiting until another run in this folder has ended.' >&2; flock 8; }
leave_rooms
mkdir "$rooms"

# 0 if no crate that isn't proved has a longer chain above it, and else 19, at which it hardly delays those that have 0.
niceness() { # CRATE
    local crate
    for crate in "${waiting[@]}" "${running[@]}"; do
        [ "${above[$crate]}" -le "${above[$1]}" ] || { echo 19; return; }
    done
    echo 0
}

stop() {
    trap '' INT TERM HUP
    local process proofs
    exec 2> /dev/null # what bash says of those that are killed
    proofs=$(jobs -p)
    for process in $proofs; do kill -KILL -- "-$process" || true; done
    wait
    if [ -n "$proofs" ]; then
        # What a killed one had started ends a moment later, and has the lock until then. If another run gets it first, that one
        # clears the rooms.
        exec 8< build
        flock -w 60 8 || return 0
    fi
    leave_rooms
}
trap stop EXIT
trap 'exit 130' INT
trap 'exit 143' TERM HUP

# What runs, by its process, and what is proved.
declare -A running=() proved=()
mapfile -t waiting < <(for crate in "${crates[@]}"; do echo "${above[$crate]} $crate"; done | sort -srnk1,1 | cut -d' ' -f2)
count=0
while [ $((${#waiting[@]} + ${#running[@]})) -gt 0 ]; do
    for i in "${!waiting[@]}"; do
        crate=${waiting[$i]}
        if [ ${#running[@]} -lt "$jobs" ] && can_start "$crate"; then
            unset "waiting[$i]"
            count=$((count + 1))
            echo "[$count of ${#crates[@]}] $crate" >&2
            nice=$(niceness "$crate")
            prove "$crate" $((nice ? jobs - ${#running[@]} / 2 : jobs)) "$nice" > "$rooms/$crate.log" 2>&1 < /dev/null &
            running[$!]=$crate
        fi
    done
    [ ${#running[@]} -gt 0 ] || { echo "crates.txt: one of these stands on itself: ${waiting[*]}" >&2; exit 1; }
    status=0
    wait -n -p process || status=$?
    crate=${running[$process]}
    unset "running[$process]"
    leave_room "$crate"
    [ $status -eq 0 ] || { cat "$rooms/$crate.log" >&2; exit 1; }
    proved[$crate]=yes
done
