# shellcheck shell=sh disable=SC2154 # top and program are the launcher's
# Builds the program, in the shell of the launcher `foedus` and with its `top`, `program`, `say`, `give_up`, `is_stale`.
#
# First each library that the program stands on is proved, several side by side. While the toolchain proves one it
# locks the folder of each crate that this one stands on, so that is done in copies of the tree. What a copy made is
# handed to the tree, and from there to the copies that need it below theirs. At last the program is proved and linked in
# the tree. What is proved, the toolchain alone decides: it takes a library only where that is made from the text that
# stands there, and proves it anew else. A build that is cut off leaves libraries that are whole or none, and the next
# one goes on from there.
#
# FOEDUS_COPIES: how many libraries at once; 1 for one after another, in the tree itself. Else it is as many as
# processors and memory allow.
logs=$top/crates/foedus/out
cores=$(nproc 2>/dev/null) || cores=1

# How many copies: as many as processors, at most six, and none for which there aren't four gigabytes of memory.
copies_wanted() (
    case $FOEDUS_COPIES in
    '') ;;
    *[!0-9]* | 0*) give_up "FOEDUS_COPIES is no number from 1 on: $FOEDUS_COPIES" ;;
    *) echo "$FOEDUS_COPIES" && exit ;;
    esac
    memory=$(awk '/^MemAvailable:/ { print int($2 / 4000000) }' /proc/meminfo 2>/dev/null)
    wanted=$cores
    [ "$wanted" -le "${memory:-1}" ] || wanted=$memory
    [ "$wanted" -le 6 ] || wanted=6
    [ "$wanted" -ge 1 ] || wanted=1
    echo "$wanted"
)

# Lets one build at a time into the tree. What it opens is locked until the last process that has it ends, and that is
# the guard, once it has removed the copies.
take_turn() {
    exec 9>"$logs/build.lock" || give_up "$logs can't be written"
    command -v flock >/dev/null || return 0
    flock -n 9 && return
    say "another call is building the program; waiting for it"
    flock 9
}

# Makes a folder for the copies, on the disk of the tree and out of the way of what git and the toolchain look at.
make_room() {
    rm -rf "$top"/.git/foedus_build_*
    room=$(mktemp -d "$top/.git/foedus_build_XXXXXX" 2>/dev/null || mktemp -d) || give_up "no room for copies"
    mkfifo "$room/alive" "$room/ended" || give_up "no pipes in $room"
    guard >/dev/null 2>&1 &
    exec 8>"$room/alive" 3<>"$room/ended"
}

# Ends the jobs that run, and removes the copies, as soon as the build ends, however it does: then nobody has the pipe
# any more, into which nothing is ever written. The caller doesn't wait for it, nor for an output that it has.
guard() {
    trap '' INT TERM HUP
    read -r _ <"$room/alive"
    for job in "$room"/job.*; do kill "$(cat "$job")"; done 2>/dev/null
    rm -rf "$room" 2>/dev/null || { sleep 1 && rm -rf "$room"; }
}

# Calls the toolchain in the folder of a crate, below others where `gentle` says how. A file has its number as long as it
# runs, for the guard.
call_rt() (
    folder=$1 job=$room/job.$2 && shift 2 || exit
    # shellcheck disable=SC2016,SC2086
    sh -c 'cd -- "$1" && echo $$ >"$2" && shift 2 && exec "$@"' sh "$folder" "$job" $gentle rt "$@" </dev/null 3>&- 9>&-
    status=$?
    rm -f "$job"
    exit "$status"
)

# Gives the crate of one folder the library that was built in another one, whole or not at all.
hand_over() (
    [ -e "$1/out/rlib/stamp" ] && ! cmp -s "$1/out/rlib/stamp" "$2/out/rlib/stamp" || exit 0
    mkdir -p "$2/out" && rm -rf "$2/out/rlib" "$2/out/rlib.new" || exit
    cp -Rl -- "$1/out/rlib" "$2/out/rlib.new" 2>/dev/null ||
        { rm -rf "$2/out/rlib.new" && cp -R -- "$1/out/rlib" "$2/out/rlib.new"; } || exit
    mv -- "$2/out/rlib.new" "$2/out/rlib"
)

# In the background, where it lets go of the guard's pipe: proves a library with so many jobs in a copy, by its number,
# or in the tree, which has the number 0, over those below it, which the tree has; hands the tree what a copy made; and
# tells how that ended. One with a single job gives way to the one that all others wait for.
prove() {
    exec 8>&-
    gentle=''
    [ "$2" != 1 ] || gentle='nice -n 10'
    place=$room/$3
    [ "$3" != 0 ] || place=$top
    for below in $ended; do
        [ "$3" = 0 ] || hand_over "$top/crates/$below" "$place/crates/$below" 2>>"$logs/$1.log"
    done
    call_rt "$place/crates/$1" "$1" lib --jobs "$2" >"$logs/$1.log" 2>&1
    status=$?
    [ "$status" != 0 ] || [ "$3" = 0 ] || hand_over "$place/crates/$1" "$top/crates/$1" 2>>"$logs/$1.log"
    echo "$1 $status $3" >&3
}

# Copies what the toolchain reads of the tree.
copy_tree() (
    mkdir -p "$1/.git" && cp -- "$top/crates.txt" "$top/HANDLES" "$1/" || exit
    for crate in "$top"/crates/*; do
        mkdir -p "$1/crates/${crate##*/}" || exit
        for part in src specs proofs; do
            [ ! -d "$crate/$part" ] || cp -R -- "$crate/$part" "$1/crates/${crate##*/}/" || exit
        done
    done
)

# The libraries that the program stands on, by tools/plan.awk.
make_plan() (
    cd -- "$top" && awk -v program=foedus -f tools/needed.awk crates.txt >"$room/needed" || exit
    find crates/*/src crates/*/specs -type f -exec wc -c {} + 2>/dev/null |
        awk -f tools/plan.awk of=sizes - of=crates "$room/needed" | sed '$d'
)

# Whether a library, of which the names of those that it stands on follow, was built here, and nothing that it is made
# from has changed since, as far as times tell.
is_kept() (
    made=out/rlib/stamp
    cd -- "$top/crates/$1" && [ -e "$made" ] && shift || exit
    for name in "$@"; do set -- "$@" "../$name/$made" && shift; done
    for part in src specs proofs; do [ ! -d "$part" ] || set -- "$@" "$part"; done
    [ -z "$(find "$@" -type f -newer "$made" | head -n 1)" ]
)

# The libraries of the plan that are kept, as are all that they stand on.
kept_of_plan() (
    kept=
    while read -r name _ below; do
        for each in $below; do case " $kept " in *" $each "*) ;; *) continue 2 ;; esac; done
        # shellcheck disable=SC2086
        ! is_kept "$name" $below || kept="$kept $name"
    done <"$room/plan"
    echo "$kept"
)

# Begins libraries while there are copies for them and libraries that can be begun.
begin_some() {
    while [ -n "$free" ]; do
        # shellcheck disable=SC2046
        set -- $(awk -v ended="$ended" -v begun="$busy" -v cores="$cores" -f "$top/tools/next.awk" "$room/plan")
        [ $# = 2 ] || return 0
        place=${free%% *}
        free=${free#"$place"} && free=${free# }
        busy="${busy:+$busy }$1"
        prove "$1" "$2" "$place" &
        jobs="$jobs $!"
    done
}

without() { echo " $2 " | sed "s/ $1 / /; s/^ *//; s/ *$//"; }

# Shows the end of a log, and where the whole of it is.
fail() {
    tail -n 20 "$logs/$1.log" >&2
    give_up "$1 could not be $2; the whole log is $logs/$1.log"
}

# Proves the libraries of the plan that aren't kept.
prove_libraries() {
    ended=$(kept_of_plan) busy='' jobs=''
    count=$(wc -l <"$room/plan")
    # shellcheck disable=SC2086
    set -- $ended
    left=$((count - $#))
    [ "$left" -gt 0 ] || return 0
    copies=$(copies_wanted) || exit 125
    [ "$copies" -le "$left" ] || copies=$left
    free=0
    if [ "$copies" -gt 1 ]; then
        free=$(seq -s ' ' "$copies")
        for place in $free; do copy_tree "$room/$place" || give_up "the tree could not be copied into $room"; done
    fi
    say "proving $left of the $count libraries that the program stands on, up to $copies at once"
    [ "$left" -lt "$count" ] || say "from nothing this may take one to two hours on four processors"
    begin_some
    [ -n "$busy" ] || give_up "no library can be begun: crates.txt has a circle"
    while [ -n "$busy" ]; do
        read -r name status place <&3 || give_up "the build's pipe was lost"
        [ "$status" = 0 ] || fail "$name" proved
        # The copy that has just ended is the next one: it has most of what stands below what can be begun now.
        free="$place${free:+ $free}" ended="$ended $name" busy=$(without "$name" "$busy") left=$((left - 1))
        begin_some
        say "$name is proved, $(seconds) s after the begin; $left to go${busy:+; at }$busy"
    done
    for job in $jobs; do wait "$job"; done
}

# In the background, too: the toolchain builds a program by running it, here with words at which it touches no file.
link() {
    exec 8>&-
    gentle=''
    call_rt "$top/crates/foedus" foedus run --jobs "$cores" -- make 1 1 1 >"$logs/foedus.log" 2>&1
}

prove_program() {
    say "proving and linking the program itself"
    link &
    wait $! || fail foedus built
    # What changed since the build began was maybe not seen by it, so the program counts as that old.
    touch -r "$room/plan" "$program"
}

# Since the build began.
seconds() { echo $(($(date +%s) - began)); }

build() {
    command -v rt >/dev/null ||
        give_up "the program has to be built, and rt, the command of Rattle's toolchain, isn't on the PATH"
    began=$(date +%s)
    mkdir -p "$logs" || give_up "$logs can't be made"
    take_turn
    is_stale || return 0
    trap 'say "stopped; what was proved is kept"; exit 129' HUP
    trap 'say "stopped; what was proved is kept"; exit 130' INT
    trap 'say "stopped; what was proved is kept"; exit 143' TERM
    make_room
    make_plan >"$room/plan" || give_up "crates.txt can't be read"
    prove_libraries
    prove_program
    say "built, in $(seconds) s"
}

build
exec 3>&- 8>&- 9>&-
