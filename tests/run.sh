#!/bin/sh
# Tries what stands round the proved program: the launcher, the release, the tools, the program's edges as the system
# shows them, the ways of use on which a database comes to an end and the ways out, kills, stops of the machine, refused
# calls and memory, changed bytes, in short, and the sessions of README and docs/SCRIPTS.md to the letter.
# `rt ci` tries none of these. The program is the one that the launcher takes: where the shipped one is of the sources
# that are here, no toolchain is needed. What wants the toolchain, Python 3 or strace is left out, with a word, where that
# is missing.
# Usage: tests/run.sh [PROGRAM], where PROGRAM is a program to be tried in place of that one.
# Status: 0 where all that was tried holds, else 1.
top=$(readlink -f -- "$0") && top=${top%/tests/*} || exit 1
. "$top/tools/programs.sh"
failed=0

give_up() {
    echo "tests: $*" >&2
    exit 1
}

try() {
    what=$1 && shift
    begun=$(date +%s)
    "$@"
    case $? in
    0) echo "tests: $what: ok, $(($(date +%s) - begun)) s" ;;
    77) echo "tests: $what: skipped" ;;
    *) failed=1 && echo "tests: $what: FAILED" ;;
    esac
}

# shellcheck disable=SC2317 # called by `try`
# The sessions of a document: with the launcher, or with the program that was given.
sessions() {
    if [ -n "$given" ]; then set -- --program "$given" "$@"; fi
    TMPDIR=$memory python3 "$top/tests/console.py" "$@"
}

# A short form of what tries the program by kills, stops, refusals and damage; with other words each tries much more.
try_short() {
    name=$1 && shift
    try "$name, in short" env TMPDIR="$memory" python3 "$top/tests/$name.py" "$program" "$@"
}

# shellcheck disable=SC2317 # called by `try`
# That the shipped program is what the toolchain makes of these sources. It is compared with a program that was built
# here, and none is built for it, since that may take hours.
compare_release() {
    if is_intact && is_of_sources && is_stale "$built"; then
        command -v rt >/dev/null || echo "tests: rt, the command of Rattle's toolchain, isn't on the PATH"
        echo "tests: no program was built here from these sources, as the gate and tools/release.sh --check do"
        return 77
    fi
    "$top/tools/release.sh" --check
    status=$?
    [ "$status" != 2 ] || status=77
    return "$status"
}

# shellcheck disable=SC2317 # called by `try`
# Documents get read where they are short: README and all of docs/ have at most 200,000 bytes, pictures apart.
documents_are_short() {
    [ "$(cat "$top/README.md" "$top"/docs/*.md "$top/docs/foedus.1" | wc -c)" -le 200000 ]
}

# Databases for a while are made in memory, where there is a folder for that: a busy disk may take a second a sync.
memory=${TMPDIR:-/tmp}
if [ -d /dev/shm ] && [ -w /dev/shm ]; then memory=/dev/shm; fi

given=$1 built=$program
try launcher "$top/tests/launcher.sh"
if [ -n "$given" ]; then
    program=$given
elif ! choose; then
    "$top/foedus" make 1 1 1 >/dev/null || exit 1
fi
echo "tests: the program is $program"
try "the release against a build" compare_release
try "release and installation" env TMPDIR="$memory" "$top/tests/release.sh" "$program"
if ! python3 -c 'import sys; sys.exit(sys.version_info < (3, 8))' 2>/dev/null; then
    echo "tests: there is no Python 3.8, so the tools, the edges and the documents' sessions aren't tried"
    exit "$failed"
fi
try paths python3 "$top/tests/paths.py"
try tools env TMPDIR="$memory" python3 "$top/tests/tools.py" "$program"
try edges python3 "$top/tests/edges.py" "$program"
try "ways of use" env TMPDIR="$memory" python3 "$top/tests/ways.py" "$program"
try_short kill 4
try_short rough_use 1
try_short random_runs 2 1 60
try_short large_tree 2000 2000
try_short changed_bytes 1 0 2 100
try_short hot_key 1 4 1000000
if command -v cc >/dev/null; then
    try_short refused_memory 100
else
    echo "tests: there is no C compiler, so tests/refused_memory.py isn't tried"
fi
if command -v strace >/dev/null; then
    try_short stop_images 0 41 12
    try_short each_call_fails 17
    try "stops behind a kill" python3 "$top/tests/after_a_kill.py" "$program"
else
    echo "tests: there is no strace, so after_a_kill.py, stop_images.py and each_call_fails.py of tests/ aren't tried"
fi
try "sizes of the documents" documents_are_short
try "pictures of the documents" python3 "$top/bench/draw.py" --check
try "README, three minutes" sessions "$top/README.md" "Three minutes"
try docs/SCRIPTS.md sessions "$top/docs/SCRIPTS.md"
exit "$failed"
