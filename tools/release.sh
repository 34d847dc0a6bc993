#!/bin/sh
# Makes `release/`: the program that the gate proved and linked, and the text that says from what. Or checks it.
#
# Usage: tools/release.sh [--gate-ended] [TREE]
# The sources have to be committed here. TREE is this tree, or another one with the same sources. The gate, `rt ci`, is
# run in it, which takes over what it has just proved, and only where it ends well the program is taken as it linked it.
# With --gate-ended the caller says that it has ended well there, and it isn't run again.
#
# Usage: tools/release.sh --check
# Tells whether what is shipped is what its text says; under the toolchain that proved it, whether the program that is
# built here is the same, byte for byte; and under another one, whether both print the same of the examples. Where none
# is built, or only an older one, it is built first. Where the sources have changed since the release, only the
# program's own sum is looked at.
#
# Status: 0; 1 where something differs or fails; 2 where nothing differs and there was nothing to compare with.
top=$(readlink -f -- "$0") && top=${top%/tools/*} || exit 1
. "$top/tools/programs.sh"
built=crates/foedus/out/foedus # below a tree

say() { echo "release: $*"; }

give_up() {
    say "$*" >&2
    exit 1
}

make_room() {
    room=$(mktemp -d) || exit 1
    trap 'rm -rf "$room"' EXIT
    trap 'exit 1' HUP INT TERM
}

# Whether each round of a script has lines of one worker alone.
has_one_worker() {
    awk '$1 == "join" { worker = "" } /^[0-7] / { if (worker != "" && worker != $1) several = 1; worker = $1 }
        END { exit several }' "$1"
}

# What a program answers to an example on a new database: what it prints and what it keeps; or, where another order of
# the lines would make another answer, how many lines it prints.
answers() (
    rm -rf "$room/database" && mkdir "$room/database" && cd -- "$room/database" || exit
    "$1" run <"$2" >"$room/printed" 2>"$room/errors"
    echo "status $?"
    if has_one_worker "$2"; then
        cat "$room/printed"
        "$1" dump 2>"$room/errors"
        echo "status $?"
    else
        wc -l <"$room/printed"
    fi
)

wanted() {
    echo "status 0"
    if has_one_worker "$1"; then
        cat "${1%.txt}.out" "${1%.txt}.kept"
        echo "status 0"
    else
        wc -l <"${1%.txt}.out"
    fi
}

# Whether a program answers each example as the files beside it say.
answers_examples() {
    for script in "$top"/examples/*.txt; do
        answers "$1" "$script" >"$room/answers"
        wanted "$script" >"$room/wanted"
        cmp -s "$room/answers" "$room/wanted" && continue
        say "$1 answers otherwise to examples/${script##*/}" >&2
        return 1
    done
}

# That the sources here are committed, and that those in a tree are the same.
look_at_tree() {
    commit=$(git -C "$top" rev-parse HEAD) || give_up "$top has no commit"
    [ -z "$(git -C "$top" status --porcelain -- crates.txt HANDLES crates)" ] ||
        give_up "not all of $top/crates is committed"
    sources=$(sum_of_sources "$1")
    [ "$sources" = "$(sum_of_sources "$top")" ] || give_up "the sources in $1 are not those in $top"
}

# That the gate's program lies in a tree, made from sources that haven't changed since: it alone builds by both
# compilers. And that there is nothing to strip: the linker leaves names of functions, a thirtieth of the packed bytes.
look_at_program() (
    cd -- "$1" || exit
    [ -x "$built.by-rattle" ] || give_up "the gate has left no program in $1"
    # shellcheck disable=SC2046
    [ -z "$(find $(parts_of $(needed_crates)) -type f -newer "$built" | head -n 1)" ] ||
        give_up "a source in $1 is newer than the program"
    ! LC_ALL=C grep -q '\.debug_info' "$built" || give_up "$1/$built has symbols for debuggers"
    answers_examples "$PWD/$built"
)

write_release() {
    { mkdir -p "$top/release" && cp -- "$1/$built" "$shipped.new" && chmod 755 "$shipped.new"; } || return
    {
        echo "foedus, as the gate proved and linked it (made by tools/release.sh, never by hand; sums are SHA-256)"
        echo "toolchain $toolchain"
        echo "commit $commit"
        echo "sources $sources"
        echo "program $(sum_of "$shipped.new")"
    } >"$top/release/RELEASE.new" || return
    mv -f "$shipped.new" "$shipped" && mv -f "$top/release/RELEASE.new" "$top/release/RELEASE"
}

make_release() {
    tree=${1:-$top} && tree=$(readlink -f -- "$tree") || exit 1
    was=''
    ! is_intact || was="$toolchain $sources $sum"
    toolchain=$(rt version) || give_up "rt, the command of Rattle's toolchain, isn't on the PATH"
    look_at_tree "$tree"
    { "$has_ended" || (cd -- "$tree" && rt ci); } || give_up "the gate has not ended well in $tree"
    make_room
    look_at_program "$tree" || exit 1
    if [ "$was" = "$toolchain $sources $(sum_of "$tree/$built")" ]; then
        say "release/ is of these sources already, and the program is the same: nothing is written"
        return
    fi
    write_release "$tree" || give_up "release/ can't be written"
    say "release/foedus is made, $(wc -c <"$shipped") bytes; now: git add release && git commit"
}

check_release() {
    if [ ! -e "$shipped" ] && [ ! -e "$top/release/RELEASE" ]; then
        say "there is no release"
        return
    fi
    is_intact || give_up "$why"
    if ! is_of_sources; then
        say "the release is an earlier one, of commit $commit; its program is the one that its text names"
        return
    fi
    make_room
    ! can_run || answers_examples "$shipped" || exit 1
    here=$(rt version 2>/dev/null) || {
        say "its text is right; not compared with a program that is built here: rt isn't on the PATH"
        exit 2
    }
    FOEDUS_RELEASE='' FOEDUS_FOLDER='' FOEDUS_BUILD=1 "$top/foedus" make 1 1 1 >/dev/null ||
        give_up "the program can't be built"
    compare_with_built
}

# Under another toolchain other bytes are right, too, as long as they answer the same.
compare_with_built() {
    if [ "$here" = "$toolchain" ]; then
        cmp -- "$shipped" "$top/$built" || give_up "release/foedus is not what these sources and this toolchain make"
        say "release/foedus is what these sources and this toolchain make, byte for byte"
    else
        answers_examples "$top/$built" || exit 1
        say "proved with $toolchain, and here is $here: both programs answer the same to the examples"
    fi
}

if [ "$1" = --check ] && [ $# = 1 ]; then
    check_release
    exit
fi
has_ended=false
if [ "$1" = --gate-ended ]; then
    has_ended=true && shift
fi
case $#$1 in
0 | 1[!-]*) make_release "$@" ;;
*) sed -n '2,/^[^#]/s/^# \{0,1\}//p' "$0" >&2 && exit 2 ;;
esac
