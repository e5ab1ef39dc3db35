#!/bin/sh
# shards.sh N RECIPE FRAMES ALL: one run in N shards on this machine, by GNU parallel, joined to the file ALL.
#
# Ends as estrenwind run does: 0 every frame was answered, 1 some were refused, another status where a shard or the
# joining failed. ALL is as it was then.
set -u
if [ $# -ne 4 ]; then
    echo "usage: shards.sh N RECIPE FRAMES ALL" >&2
    exit 2
fi
if ! command -v parallel >/dev/null; then
    echo "shards.sh: GNU parallel is missing (Debian: apt-get install parallel)" >&2
    exit 69
fi
here=$(dirname "$0")
parts=$(mktemp -d -- "$4.parts-XXXXXX") || exit 74
trap 'rm -rf -- "$parts"' EXIT
trap 'exit 130' INT
trap 'exit 143' TERM HUP

# The first shard that fails stops the others, and its status is the one of parallel. -q hands the names on as they are.
seq "$1" | parallel -q --halt now,fail=1 sh "$here/shard.sh" {} "$1" "$2" "$3" "$parts" || exit
"${ESTRENWIND:-estrenwind}" join -o "$4" -- "$parts"/*
