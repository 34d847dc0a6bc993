# shellcheck shell=sh disable=SC2034,SC2154 # top is the caller's, and what is set here is for the caller
# The two programs that a shell with `top` and `give_up` may take: the one that was built in the tree, and the one that
# is shipped, the file `release/foedus`, which the gate proved and linked. The text `release/RELEASE` beside it says
# from what it was made: the lines `toolchain`, `commit`, `sources` and `program`. The last two are sums, of all that
# the program is made from, and of its own bytes.
program=$top/crates/foedus/out/foedus
shipped=$top/release/foedus

# The folders of the program's sources and of those of the libraries that it stands on.
source_folders() {
    awk -v program=foedus -f tools/needed.awk crates.txt | while read -r name _; do echo "crates/$name/src"; done
}

# Whether a program that was built, the tree's own if none is named, is missing, or older than its sources.
is_stale() (
    built=${1:-$program}
    [ -x "$built" ] || return 0
    cd -- "$top" || exit 1
    # shellcheck disable=SC2046 # names of crates have no blanks
    [ -n "$(find crates.txt $(source_folders) -type f -newer "$built" | head -n 1)" ]
)

# The lines of the text as variables, where there is one.
read_release() {
    toolchain='' commit='' sources='' sum=''
    [ -r "$top/release/RELEASE" ] || return
    while read -r key value; do
        case $key in
        toolchain) toolchain=$value ;;
        commit) commit=$value ;;
        sources) sources=$value ;;
        program) sum=$value ;;
        esac
    done <"$top/release/RELEASE"
    [ -n "$sum" ]
}

# What the program is made from, in a line: crates.txt, and of the crates that are named, in the tree where the caller
# is, the folders src, specs and proofs, as far as they have them.
parts_of() {
    parts=crates.txt
    for name; do
        for part in src specs proofs; do [ ! -d "crates/$name/$part" ] || parts="$parts crates/$name/$part"; done
    done
    echo "$parts"
}

# The program and the libraries that it stands on, in a line.
needed_crates() { awk -v program=foedus -f "$top/tools/needed.awk" crates.txt | cut -d ' ' -f 1 | tr '\n' ' '; }

sum_of() { sha256sum <"$1" | cut -d ' ' -f 1; }

# The sum of all files of a tree that the program is made from, each with its name, by the bytes of their names.
sum_of_sources() (
    cd -- "$1" || exit
    # shellcheck disable=SC2046 # names of crates have no blanks
    find $(parts_of $(needed_crates)) -type f -exec sha256sum {} + | LC_ALL=C sort -k 2 | sha256sum | cut -d ' ' -f 1
)

# Each of the next three holds, or `why` says why not.

is_intact() {
    why="there is no release/foedus with a text release/RELEASE"
    read_release && [ -f "$shipped" ] || return
    why="release/foedus is not the file that release/RELEASE names (git restores it: git checkout release)"
    [ "$(sum_of "$shipped")" = "$sum" ]
}

is_of_sources() {
    why="the sources here are not those of the shipped program"
    [ "$(sum_of_sources "$top")" = "$sources" ]
}

can_run() {
    why="the shipped program, for Linux on x86-64 with the GNU C library, can't be run on this machine ($(uname -sm))"
    "$shipped" make 1 1 1 >/dev/null 2>&1
}

# Whether the shipped program can be run on this machine and was made from the sources that are here. To find that out
# all of them are read, which takes 0.4 s, so it is kept in a file that git ignores. That has the time at which the
# reading began, and later calls ask only whether anything has changed since. The time asked for is the one of a change
# of any kind, which nobody can set back. Where nothing can be kept, all is read at each call.
is_current() {
    why="there is no release/foedus with a text release/RELEASE"
    read_release || return
    checked=$top/release/.checked host=''
    [ ! -r /proc/sys/kernel/hostname ] || read -r host </proc/sys/kernel/hostname
    ! is_unchanged || return 0
    { keep >"$checked.$$"; } 2>/dev/null
    if is_intact && is_of_sources && can_run; then
        mv -f "$checked.$$" "$checked" 2>/dev/null
        return 0
    fi
    rm -f "$checked.$$"
    return 1
}

# What is kept: the text and the machine, the crates, and the folders that they have.
keep() (
    cd -- "$top" || exit
    names=$(needed_crates)
    echo "$sum $sources $host"
    echo "$names"
    # shellcheck disable=SC2086
    parts_of $names
)

# Whether that was kept, and nothing has changed since. A find that can't tell says so, and then something may have.
is_unchanged() (
    cd -- "$top" && [ -r "$checked" ] || exit
    { read -r kept && read -r names && read -r folders; } <"$checked" || exit
    # shellcheck disable=SC2086
    [ "$kept" = "$sum $sources $host" ] && [ "$folders" = "$(parts_of $names)" ] &&
        [ -z "$(find release/foedus release/RELEASE $folders -cnewer "$checked" 2>&1)" ]
)

# Sets `program` to the one that is run at once: one that was built here, where that is newer than its sources, or else
# the shipped one, where it is of the sources that are here. Or says in `why` that there is none. FOEDUS_BUILD=1: the
# shipped one isn't taken. FOEDUS_RELEASE=1: it is taken, whatever the sources are.
choose() {
    why=''
    if [ "$FOEDUS_RELEASE" = 1 ]; then
        { is_intact && can_run; } || give_up "$why"
        program=$shipped
        return 0
    fi
    is_stale || return 0
    [ "$FOEDUS_BUILD" != 1 ] && is_current && program=$shipped
}
