# shellcheck shell=sh disable=SC2154 # top and the functions are the launcher's
# Tells, in the shell of the launcher `foedus`, which program a call would run at once, and from what it was made.

# Of a program that was built here only the files are left to ask.
tell_built() {
    echo "foedus, built in this tree"
    echo "toolchain $(rt version 2>/dev/null || echo unknown)"
    commit=$(git -C "$top" rev-parse HEAD 2>/dev/null) || commit=unknown
    [ -z "$(git -C "$top" status --porcelain -- crates.txt crates 2>/dev/null)" ] || commit="$commit with changes"
    echo "commit $commit"
    echo "sources $(sum_of_sources "$top")"
    echo "program $(sum_of "$program")"
}

tell_version() {
    if choose; then
        [ "$program" = "$shipped" ] || { tell_built && return; }
        cat "$top/release/RELEASE"
    elif read_release; then
        cat "$top/release/RELEASE"
        say "a call builds another one first: ${why:-FOEDUS_BUILD is 1}"
    else
        give_up "there is no program yet; a call builds one"
    fi
}

tell_version
exit
