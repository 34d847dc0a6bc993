#!/bin/sh
# Installs the shipped program: PREFIX/bin/foedus, which runs PREFIX/libexec/foedus/foedus, the man page, and
# completion for bash. No toolchain is needed, neither for that nor to use it, nor is this tree afterwards.
# Usage: tools/install.sh PREFIX, as in: tools/install.sh ~/.local
# It prints the files that it writes. Status: 0; 1 where something can't be installed; 2 for other words.
top=$(readlink -f -- "$0") && top=${top%/tools/*} || exit 1
. "$top/tools/programs.sh"

give_up() {
    echo "install: $*" >&2
    exit 1
}

# Writes its input as a file with a mode, whole or not at all, also over a program that runs.
put() {
    { mkdir -p -- "${2%/*}" && cat >"$2.new" && chmod "$1" "$2.new" && mv -f -- "$2.new" "$2"; } ||
        give_up "$2 can't be written"
    echo "$2"
}

case $#$1 in
1[!-]*) ;;
*) sed -n '2,/^[^#]/s/^# \{0,1\}//p' "$0" >&2 && exit 2 ;;
esac
{ is_intact && can_run; } || give_up "$why"
is_of_sources || echo "install: $why; this is the release of commit $commit" >&2
prefix=${1%/}
put 755 "$prefix/libexec/foedus/foedus" <"$shipped"
put 644 "$prefix/libexec/foedus/RELEASE" <"$top/release/RELEASE"
put 755 "$prefix/bin/foedus" <"$top/tools/installed.sh"
put 644 "$prefix/share/man/man1/foedus.1" <"$top/docs/foedus.1"
awk -v of=completion -f "$top/tools/commands.awk" "$top/tools/commands.txt" |
    put 644 "$prefix/share/bash-completion/completions/foedus"
