#!/bin/sh
# Tries the launcher `foedus` over a tree of four small crates, with a toolchain of its own in place of rt, which takes
# a moment for each library, writes down how it was called, and fails where it is told to.
# Usage: tests/launcher.sh. Status 0 where all holds; else 1, with what doesn't on standard error.
# shellcheck disable=SC2317 # what is called through `holds`
top=$(readlink -f -- "$0") && top=${top%/tests/*} || exit 1
room=$(mktemp -d) || exit 1
trap 'rm -rf "$room"' EXIT
trap 'exit 1' HUP INT TERM
failed=0 at=
unset FOEDUS_BUILD FOEDUS_RELEASE

# Tells what should hold, where it doesn't.
holds() {
    what=$1 && shift
    "$@" || { failed=1 && echo "launcher: not so: $what" >&2; }
}

lacks() { ! "$@"; }

# Whether it holds within half a minute: on a busy machine what ends behind a call takes its time.
soon() {
    for _ in $(seq 150); do
        "$@" && return
        sleep 0.2
    done
    return 1
}

make_toolchain() {
    mkdir -p "$room/bin" "$room/proved" "$room/fails"
    cat >"$room/bin/rt" <<'END'
#!/bin/sh
name=$(basename "$PWD") room=$(dirname "$(dirname "$0")")
case $1 in
version) echo "a toolchain" ;;
lib)
    # Of a text that was proved before there is nothing to prove.
    text=$(cat src/* | cksum | cut -d ' ' -f 1)
    if [ ! -e "$room/proved/$name.$text" ]; then
        echo "$name" >>"$room/calls"
        sleep "$(cat "$room/takes")"
        [ ! -e "$room/fails/$name" ] || { echo "an open goal of $name" && exit 1; }
        : >"$room/proved/$name.$text"
    fi
    mkdir -p out/rlib && : >out/rlib/stamp
    ;;
run)
    echo foedus >>"$room/calls"
    printf '#!/bin/sh\necho "in $PWD:"\nfor word; do echo "$word"; done\ncat\n' >out/foedus
    chmod +x out/foedus
    ;;
esac
END
    chmod +x "$room/bin/rt"
    echo 0.05 >"$room/takes"
}

# A tree in which two libraries stand on a third, and the program on both.
make_tree() {
    rm -rf "$room/tree" "$room/proved" "$room/fails" "$room/calls"
    mkdir -p "$room/proved" "$room/fails" "$room/tree/.git" "$room/tree/tools"
    cp "$top/foedus" "$room/tree/" && cp "$top"/tools/*.awk "$top"/tools/*.sh "$room/tree/tools/"
    printf 'low: # a comment: foedus\nleft: low std\nright: low\nfoedus: left right\ntests: foedus low\n' \
        >"$room/tree/crates.txt"
    echo 'Handles allowed: none.' >"$room/tree/HANDLES"
    for name in low left right foedus tests; do
        mkdir -p "$room/tree/crates/$name/src" && echo "$name" >"$room/tree/crates/$name/src/lib.rt"
    done
    touch -d '1 minute ago' "$room"/tree/crates.txt "$room"/tree/crates/*/src/lib.rt
}

call() (
    cd "${folder:-$room}" || exit
    PATH=$room/bin:$PATH FOEDUS_FOLDER=$at FOEDUS_COPIES=${copies:-2}
    export PATH FOEDUS_FOLDER FOEDUS_COPIES
    "${launcher:-$room/tree/foedus}" "$@" >"$room/out" 2>"$room/err"
)

told() { grep -q -- "$1" "$room/err"; }

printed() { [ "$(cat "$room/out")" = "$1" ]; }

calls() { [ "$(sort "$room/calls" | tr '\n' ' ')" = "$1" ]; }

left_nothing() { [ -z "$(ls "$room/tree/.git")" ]; }

tries_a_first_call() {
    make_tree
    echo input | call run 'two words' ''
    holds "a first call ends as the program does" [ $? = 0 ]
    holds "it prints what the program does" printed "in $room:
run
two words

input"
    holds "each library is proved once" calls "foedus left low right "
    holds "it says how many are left" told "low is proved, .*; 2 to go; at \(left right\|right left\)"
    holds "copies are removed" soon left_nothing
    : >"$room/calls"
    call </dev/null
    holds "a later call builds nothing" calls ""
    holds "and says nothing" [ ! -s "$room/err" ]
}

tries_edits() {
    make_tree
    copies=1 call </dev/null
    holds "in the tree itself each library is proved once, too" calls "foedus left low right "
    : >"$room/calls" && echo more >>"$room/tree/crates/left/src/lib.rt"
    call </dev/null
    holds "what changed is proved again" calls "foedus left "
    : >"$room/calls" && echo more >>"$room/tree/crates/tests/src/lib.rt"
    call </dev/null
    holds "what the program doesn't stand on is left alone" calls ""
}

tries_folders() {
    make_tree
    mkdir -p "$room/links" "$room/with space" && ln -sf ../tree/foedus "$room/links/one" && ln -sf one "$room/links/two"
    folder="$room/with space" launcher=../links/two call </dev/null
    holds "a link is called where its caller is" printed "in $room/with space:"
    holds "the program is built beside the real file" [ -x "$room/tree/crates/foedus/out/foedus" ]
    folder=$room/links at='../with space' launcher=./two call </dev/null
    holds "FOEDUS_FOLDER is gone into" printed "in $room/with space:"
    at=$room/none call </dev/null
    holds "a folder that isn't there is refused" [ $? = 125 ]
    holds "and named" told "$room/none"
}

# With all tools of the machine but rt.
tries_without_the_toolchain() (
    make_tree
    mkdir -p "$room/tools"
    for tool in sh awk sed find head tail cat cp mkdir mktemp mkfifo rm touch readlink date nproc seq wc flock sleep \
        sort sha256sum cut tr uname mv; do
        ln -sf "$(command -v "$tool")" "$room/tools/$tool"
    done
    PATH=$room/tools "$room/tree/foedus" dump >"$room/out" 2>"$room/err" </dev/null
    holds "without rt there is no program" [ $? = 125 ]
    holds "which is said" told "rt, the command of Rattle's toolchain, isn't on the PATH"
    holds "and nothing is printed" [ ! -s "$room/out" ]
    ship && echo more >>"$room/tree/crates/left/src/lib.rt"
    PATH=$room/tools "$room/tree/foedus" dump >"$room/out" 2>"$room/err" </dev/null
    holds "nor is there with a shipped one of other sources" [ $? = 125 ]
    holds "which is said" told "the sources here are not those of the shipped program"
    holds "and the way out" told "FOEDUS_RELEASE=1"
    exit "$failed"
)

# Ships a program of the tree's sources, which tells its words, and how a file ends that may not grow.
ship() (
    cd "$room/tree" && top=$room/tree && mkdir -p release || exit
    cat >release/foedus <<'END'
#!/bin/sh
echo "shipped: $*"
[ "$1" != fill ] || { (ulimit -f 1; head -c 9999 /dev/zero >"$0.filled") 2>/dev/null; echo "ended $?"; }
END
    chmod +x release/foedus
    . tools/programs.sh
    {
        echo "a program"
        echo "toolchain an older toolchain"
        echo "sources $(sum_of_sources .)"
        echo "program $(sum_of release/foedus)"
    } >release/RELEASE
)

tries_the_shipped_program() {
    make_tree && ship && : >"$room/calls"
    call dump </dev/null
    holds "a shipped program of these sources is run at once" printed "shipped: dump"
    call dump </dev/null
    holds "and again" printed "shipped: dump"
    call fill </dev/null
    holds "a file at its limit refuses writes and ends nothing" printed "shipped: fill
ended 1"
    holds "nothing is built for it" calls ""
    holds "and nothing said" [ ! -s "$room/err" ]
    echo more >>"$room/tree/crates/tests/src/lib.rt"
    call dump </dev/null
    holds "what the program doesn't stand on is left alone" printed "shipped: dump"
    FOEDUS_BUILD=1 call </dev/null
    holds "FOEDUS_BUILD=1 builds" calls "foedus left low right "
    call </dev/null
    holds "what was built is run then" printed "in $room:"
    FOEDUS_RELEASE=1 call dump </dev/null
    holds "and with FOEDUS_RELEASE=1 what was shipped" printed "shipped: dump"
}

tries_other_sources() {
    make_tree && ship && : >"$room/calls"
    call dump </dev/null
    echo more >>"$room/tree/crates/left/src/lib.rt"
    FOEDUS_RELEASE=1 call dump </dev/null
    holds "FOEDUS_RELEASE=1 runs what was shipped of other sources" printed "shipped: dump"
    call </dev/null
    holds "of other sources a program is built" calls "foedus left low right "
    holds "which is said" told "the sources here are not those of the shipped program"
    holds "with the toolchain that proved the shipped one" told "proved with an older toolchain"
    holds "and the one that is here" told "the toolchain that is here is a toolchain"
    holds "and the new one is run" printed "in $room:"
    make_tree && ship && printf '#!/bin/sh\nexit 1\n' >"$room/tree/release/foedus"
    call </dev/null
    holds "a program that its text doesn't name isn't run" printed "in $room:"
    holds "which is said" told "not the file that release/RELEASE names"
}

tries_a_failure() {
    make_tree
    copies=many call </dev/null
    holds "FOEDUS_COPIES that is no number is refused" [ $? = 125 ]
    holds "and named" told "many"
    : >"$room/fails/left"
    call </dev/null
    holds "without a library there is no program" [ $? = 125 ]
    holds "the end of its log is shown" told "an open goal of left"
    holds "and where it is" told "$room/tree/crates/foedus/out/left.log"
    holds "nothing is printed" [ ! -s "$room/out" ]
    holds "copies are removed after a failure" soon left_nothing
    rm "$room/fails/left"
    : >"$room/calls"
    call </dev/null
    holds "the next call builds the program" [ $? = 0 ]
    holds "and proves what was proved no second time" lacks grep -q low "$room/calls"
}

tries_two_at_once() {
    make_tree
    call </dev/null &
    call </dev/null
    first=$?
    wait $!
    holds "both of two first calls end well" [ "$first $?" = "0 0" ]
    holds "and each library is proved once" calls "foedus left low right "
}

# Ends a first call in its midst by a signal.
tries_an_end() {
    make_tree
    echo 30 >"$room/takes"
    PATH=$room/bin:$PATH FOEDUS_COPIES=2 "$room/tree/foedus" >"$room/out" 2>"$room/err" </dev/null &
    begun=$!
    holds "the build begins" soon [ -s "$room/calls" ]
    kill "-$1" "$begun"
    wait "$begun" 2>/dev/null
    ended=$?
    holds "after $1 nothing is left" soon left_nothing
    echo 0.05 >"$room/takes"
    holds "after $1 the call has ended" [ "$ended" = "$2" ]
    call </dev/null
    holds "after $1 the next call builds the program" [ $? = 0 ]
}

make_toolchain
tries_a_first_call
tries_edits
tries_folders
tries_without_the_toolchain || failed=1
tries_the_shipped_program
tries_other_sources
tries_a_failure
tries_two_at_once
tries_an_end TERM 143
tries_an_end KILL 137
exit "$failed"
