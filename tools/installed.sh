#!/bin/sh
# Runs the installed foedus with the caller's words in the caller's folder, or in the one that FOEDUS_FOLDER names. The
# one word --version tells by which toolchain, at which commit and from what it was made, and touches nothing.
# Status: the program's own, 0 to 9; or 125, with the cause on standard error, where it could not be run.
here=$(readlink -f -- "$0") && here=${here%/bin/*}/libexec/foedus || exit 125

if [ "$#" = 1 ] && [ "$1" = --version ]; then
    exec cat "$here/RELEASE"
fi
if [ -n "$FOEDUS_FOLDER" ] && ! CDPATH='' cd -- "$FOEDUS_FOLDER"; then
    echo "foedus: FOEDUS_FOLDER names no folder that can be used: $FOEDUS_FOLDER" >&2
    exit 125
fi
# So a file that has grown to the limit which the system sets refuses a write, and the program tells that. Else the
# signal would end it.
trap '' XFSZ
exec "$here/foedus" "$@"
