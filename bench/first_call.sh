#!/bin/sh
# Measures the first call of the launcher in a fresh clone that doesn't take the shipped program: it proves all that the
# program stands on and builds it. And then a later call, which does neither. With --shipped it measures instead the
# first call that takes the shipped program, which reads all sources for that, and a later one.
#
# The toolchain keeps what it proved beside its own folder, for all checkouts on the machine, and a library of the same
# text would be taken over from there. So that the call is from nothing the toolchain is called in a copy of its folder
# (of hard links, which take no room), beside which nothing is kept. With --shared it is called where it is; then it is
# told of how many crates something was taken over.
#
# Usage: bench/first_call.sh [--shipped | --shared] [--copies N] [FOLDER]. The clone, of what is committed here, and
# the toolchain's copy are made in FOLDER, on the disk of the toolchain (/tmp if it is left out), and removed behind it;
# some 10 GB are wanted, with --shipped 0.1. --copies N: so many libraries at once, 1 for one after another; else the
# launcher chooses. Nothing else should run on the machine: the load as it begins and ends is told. Status: 0; 1 where
# the call failed.
top=$(readlink -f -- "$0") && top=${top%/bench/*} || exit 1
is_shared=false copies='' folder=/tmp builds=1
while [ $# -gt 0 ]; do
    case $1 in
    --shared) is_shared=true ;;
    --shipped) is_shared=true builds=0 ;;
    --copies) copies=$2 && shift ;;
    -*) sed -n '2,/^[^#]/s/^# \{0,1\}//p' "$0" >&2 && exit 2 ;;
    *) folder=$1 ;;
    esac
    shift
done
room=$(mktemp -d "$folder/first_call_XXXXXX") || exit 1
trap 'rm -rf "$room"' EXIT
trap 'exit 1' HUP INT TERM

load() { cut -d ' ' -f 1-3 /proc/loadavg; }

# Has rt found in a copy of the toolchain's folder.
copy_toolchain() {
    found=$(readlink -f -- "$(command -v rt)") && kit=${found%/bin/rt} || exit 1
    mkdir "$room/tools" && cp -al -- "$kit" "$room/tools/kit" || exit 1
    PATH=$room/tools/kit/bin:$PATH
}

# Seconds with hundredths since the machine was started.
now() { cut -d ' ' -f 1 /proc/uptime; }

since() { awk -v from="$1" -v to="$(now)" 'BEGIN { printf "%.2f", to - from }'; }

# Crates of which something was kept elsewhere, by the logs of the build. Copies of the clone count for nothing here.
taken() { cat "$clone"/crates/foedus/out/*.log | grep 'begins with what a check kept in' | grep -vc "kept in $clone/"; }

"$is_shared" || copy_toolchain
clone=$room/clone
git clone -q -- "$top" "$clone" || exit 1
echo "commit $(git -C "$clone" rev-parse --short HEAD), $(nproc) processors, $(rt version 2>/dev/null)"
echo "load at the begin: $(load)"
begun=$(now)
export FOEDUS_BUILD=$builds
FOEDUS_COPIES=$copies "$clone/foedus" make 1 1 1 >"$room/out" || exit 1
first=$(since "$begun")
begun=$(now)
"$clone/foedus" make 1 1 1 >"$room/again" || exit 1
later=$(since "$begun")
echo "load at the end: $(load)"
cmp "$room/out" "$room/again" || exit 1
echo "first call $first s ($(awk -v s="$first" 'BEGIN { printf "%.1f", s / 60 }') minutes), a later one $later s"
[ "$builds" = 0 ] || echo "crates of which something was taken over from elsewhere: $(taken)"
