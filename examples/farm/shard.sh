#!/bin/sh
# shard.sh I N RECIPE FRAMES PARTS: answers the frames of shard I of N to the file PARTS/I.
#
# A shard that ends with 1 has refused some frames, and its answers are complete: that counts as done, and join tells of it.
# Any other status is a shard that is not done, and is passed on.
set -u
if [ $# -ne 5 ]; then
    echo "usage: shard.sh I N RECIPE FRAMES PARTS" >&2
    exit 2
fi
"${ESTRENWIND:-estrenwind}" run --quiet --shard "$1/$2" -o "$5/$1" -- "$3" "$4"
status=$?
if [ $status -eq 1 ]; then
    status=0
fi
exit $status
