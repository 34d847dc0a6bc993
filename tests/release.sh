#!/bin/sh
# Tries the release over a copy of this tree: how it is made and checked, that a changed byte is seen, what the
# launcher runs, and the installation. In place of the toolchain stands a command that tells a version and how a gate
# ended.
# Usage: tests/release.sh PROGRAM, where PROGRAM is shipped in the copy. Status 0 where all holds, else 1, with what
# doesn't on standard error; 77 where git is missing.
# shellcheck disable=SC2317 # what is called through `holds`
top=$(readlink -f -- "$0") && top=${top%/tests/*} || exit 1
program=$(readlink -f -- "$1") && [ -x "$program" ] || exit 1
command -v git >/dev/null || exit 77
room=$(mktemp -d) || exit 1
trap 'rm -rf "$room"' EXIT
trap 'exit 1' HUP INT TERM
tree=$room/tree built=$room/tree/crates/foedus/out/foedus failed=0
unset FOEDUS_FOLDER FOEDUS_BUILD FOEDUS_RELEASE

# Tells what should hold, where it doesn't.
holds() {
    what=$1 && shift
    "$@" || { failed=1 && echo "release: not so: $what" >&2; }
}

make_toolchain() {
    mkdir -p "$room/bin"
    cat >"$room/bin/rt" <<'END_OF_RT'
#!/bin/sh
case $1 in
version) cat "${0%/*}/version" ;;
ci) exit "$(cat "${0%/*}/gate")" ;;
*) exit 1 ;;
esac
END_OF_RT
    chmod +x "$room/bin/rt"
    echo "a toolchain" >"$room/bin/version"
    echo 0 >"$room/bin/gate"
}

make_tree() {
    mkdir "$tree" "$room/data"
    cp "$top/crates.txt" "$top/HANDLES" "$top/foedus" "$top/.gitignore" "$tree/"
    for part in examples tools docs; do cp -R "$top/$part" "$tree/"; done
    for crate in "$top"/crates/*; do
        mkdir -p "$tree/crates/${crate##*/}"
        for part in src specs proofs; do
            [ ! -d "$crate/$part" ] || cp -R "$crate/$part" "$tree/crates/${crate##*/}/"
        done
    done
    commit
}

commit() (
    cd "$tree" && git init -q . && git add -A || exit
    git -c user.name=release -c user.email=release@localhost commit -q -m "$(date)"
)

# What the gate leaves.
leave_program() {
    mkdir -p "${built%/*}" && cp "$program" "$built" && cp "$program" "$built.by-rattle"
}

# Calls with the words in a folder of its own: with the toolchain, and without.
with_rt() (
    cd "$room/data" && PATH=$room/bin:$PATH && export PATH
    "$@" >"$room/out" 2>"$room/err" </dev/null
)
# shellcheck disable=SC2123 # that is what it is for
without_rt() (
    mkdir -p "$room/tools" && for tool in $tools; do ln -sf "$(command -v "$tool")" "$room/tools/$tool"; done
    cd "$room/data" && PATH=$room/tools && export PATH
    "$@" >"$room/out" 2>"$room/err" </dev/null
)
tools="sh awk sed find head cat cp cut mkdir mktemp mv rm sort tr readlink sha256sum uname cmp chmod git wc date nproc"

ends() { [ "$status" = "$1" ]; }
told() { cat "$room/out" "$room/err" | grep -q -e "$1"; }
made() { [ "$(cat "$room/out")" = "$("$program" make 1 1 1)" ]; }
same() { cmp -s "$1" "$2"; }

# A call, whose status the next lines ask for.
call() {
    "$@"
    status=$?
}

# Turns a bit of the byte in the midst of a file, which keeps the time of its last change.
change_byte() {
    cp -p "$1" "$room/before"
    at=$(($(wc -c <"$1") / 2))
    byte=$(od -An -tu1 -j "$at" -N 1 "$1")
    # shellcheck disable=SC2059 # the text is made
    printf "\\$(printf %o $((byte ^ 1)))" | dd of="$1" bs=1 seek="$at" conv=notrunc 2>/dev/null
    touch -r "$room/before" "$1"
}
change_back() { cp -p "$room/before" "$1"; }

tries_making() {
    call with_rt "$tree/tools/release.sh" --check
    holds "without a release a check is well" ends 0
    call with_rt "$tree/tools/release.sh"
    holds "without the gate's program nothing is made" ends 1
    leave_program
    echo 1 >"$room/bin/gate"
    call with_rt "$tree/tools/release.sh"
    holds "nor where the gate fails" ends 1
    holds "and nothing is written" [ ! -e "$tree/release" ]
    echo 0 >"$room/bin/gate"
    echo >>"$tree/crates/foedus/src/main.rt"
    call with_rt "$tree/tools/release.sh"
    holds "nor from sources that aren't committed" told "not all of .* is committed"
    git -C "$tree" checkout -q -- crates
    call with_rt "$tree/tools/release.sh"
    holds "nor where a source is newer than the program" told "is newer than the program"
    leave_program
    call with_rt "$tree/tools/release.sh"
    holds "a release is made" ends 0
    holds "of the very program" same "$program" "$tree/release/foedus"
    holds "with the toolchain" grep -qx "toolchain a toolchain" "$tree/release/RELEASE"
    holds "and the commit" grep -qx "commit $(git -C "$tree" rev-parse HEAD)" "$tree/release/RELEASE"
    commit
    call with_rt "$tree/tools/release.sh" --gate-ended
    holds "it is made once" told "nothing is written"
}

tries_checking() {
    call with_rt "$tree/tools/release.sh" --check
    holds "a release is what the gate linked" ends 0
    holds "byte for byte" told "byte for byte"
    change_byte "$built"
    call with_rt "$tree/tools/release.sh" --check
    holds "a program that differs in a byte is seen" ends 1
    echo "another toolchain" >"$room/bin/version"
    cp "$program" "$built" && echo >>"$built"
    call with_rt "$tree/tools/release.sh" --check
    holds "under another toolchain other bytes are well" ends 0
    holds "where both answer the same" told "a toolchain, and here is another toolchain"
    printf '#!/bin/sh\nexec "%s" "$@" --brief\n' "$program" >"$built"
    call with_rt "$tree/tools/release.sh" --check
    holds "and not where they don't" ends 1
    echo "a toolchain" >"$room/bin/version"
    rm "$built"
    call without_rt "$tree/tools/release.sh" --check
    holds "without a toolchain there is nothing to compare with" ends 2
}

tries_the_launcher() {
    call without_rt "$tree/foedus" make 1 1 1
    holds "the shipped program is run without a toolchain" made
    holds "and nothing is said" [ ! -s "$room/err" ]
    holds "what was read is kept" [ -s "$tree/release/.checked" ]
    holds "where git doesn't see it" [ -z "$(git -C "$tree" status --porcelain)" ]
    call without_rt "$tree/foedus" --version
    holds "its text is told" same "$room/out" "$tree/release/RELEASE"
    rm -rf "$room/data" && mkdir "$room/data"
    call without_rt "$tree/foedus" --version
    holds "which touches nothing" [ -z "$(ls "$room/data")" ]
    call without_rt "$tree/foedus" --version more
    holds "two words are the program's to refuse" ends 2
}

tries_a_changed_program() {
    change_byte "$tree/release/foedus"
    call without_rt "$tree/foedus" make 1 1 1
    holds "a changed byte of the program isn't run" ends 125
    holds "and told" told "not the file that release/RELEASE names"
    FOEDUS_RELEASE=1 call without_rt "$tree/foedus" make 1 1 1
    holds "nor where it is asked for" ends 125
    call with_rt "$tree/tools/release.sh" --check
    holds "a check fails for it" ends 1
    call with_rt "$tree/tools/install.sh" "$room/none"
    holds "and it isn't installed" [ ! -e "$room/none" ]
    change_back "$tree/release/foedus"
}

# After `what` was done to the sources.
sees_sources() {
    call without_rt "$tree/foedus" make 1 1 1
    holds "$1: the shipped program isn't run" ends 125
    holds "$1: which is told" told "the sources here are not those of the shipped program"
    holds "$1: with its toolchain" told "proved with a toolchain"
    call without_rt "$tree/tools/release.sh" --check
    holds "$1: a check is well" ends 0
    holds "$1: and says why" told "the release is an earlier one"
    FOEDUS_RELEASE=1 call without_rt "$tree/foedus" make 1 1 1
    holds "$1: FOEDUS_RELEASE=1 runs it all the same" made
    call without_rt "$tree/foedus" --version
    holds "$1: --version tells what is shipped" told "program $(sha256sum <"$program" | cut -d ' ' -f 1)"
}

tries_changed_sources() {
    for source in foedus/src/main.rt lists/specs/Each.antt; do
        change_byte "$tree/crates/$source"
        sees_sources "a changed byte of $source"
        change_back "$tree/crates/$source"
    done
    mv "$tree/crates/$source" "$room/moved" && sees_sources "without $source"
    mv "$room/moved" "$tree/crates/$source"
    call without_rt "$tree/foedus" make 1 1 1
    holds "with the sources as they were it is run again" made
    mkdir "$tree/crates/foedus/proofs" && : >"$tree/crates/foedus/proofs/More.antt"
    sees_sources "with a new folder of proofs"
    rm -r "$tree/crates/foedus/proofs"
}

# A file may grow to 8,192 bytes.
fill() {
    (ulimit -f 16 && "$program" make 1 4 2000 | "$1" run --brief >"$room/out" 2>"$room/err")
    status=$?
    rm -rf "$room/data/vault"
}

tries_limits() {
    cd "$room/data" || return
    fill "$tree/foedus"
    holds "a file that may not grow is a refused write" ends 5
    holds "and named" told "^device bank[0-7]"
    fill "$prefix/bin/foedus"
    holds "so it is where the program is installed" ends 5
    cd "$room" || return
}

tries_installing() {
    prefix="$room/a prefix"
    call without_rt "$tree/tools/install.sh" "$prefix"
    holds "it is installed without a toolchain" ends 0
    holds "each file is told" [ "$(grep -c "^$prefix/" "$room/out")" = 5 ]
    mv "$tree" "$room/away"
    call without_rt "$prefix/bin/foedus" make 1 1 1
    holds "and runs without the tree" made
    call without_rt "$prefix/bin/foedus" --version
    holds "its text is told" same "$room/out" "$room/away/release/RELEASE"
    ln -s "$prefix/bin/foedus" "$room/link"
    mkdir "$room/there"
    FOEDUS_FOLDER=$room/there call without_rt "$room/link" dump
    holds "through a link and in another folder, too" [ -d "$room/there/vault" ]
    mv "$room/away" "$tree"
    awk -v of=man -f "$tree/tools/commands.awk" "$tree/tools/commands.txt" >"$room/man"
    holds "docs/foedus.1 is what tools/commands.txt gives" same "$room/man" "$top/docs/foedus.1"
    holds "and it is installed" same "$room/man" "$prefix/share/man/man1/foedus.1"
}

# What bash would offer behind some words.
completes() (
    wanted=$1 && shift
    # shellcheck disable=SC2016 # for bash
    offered=$(bash -c '. "$1" && shift && COMP_WORDS=("$@") COMP_CWORD=$(($# - 1))
        _foedus && echo "${COMPREPLY[*]}"' bash "$prefix/share/bash-completion/completions/foedus" foedus "$@")
    [ "$offered" = "$wanted" ]
)

tries_completion() {
    command -v bash >/dev/null || return 0
    holds "commands are completed" completes "snaps snap" sna
    holds "options are completed" completes "--slots --snap" run --s
    holds "numbers aren't" completes "" run --tries ""
}

make_toolchain
make_tree
tries_making
tries_checking
tries_the_launcher
tries_a_changed_program
tries_changed_sources
tries_installing
tries_limits
tries_completion
exit "$failed"
