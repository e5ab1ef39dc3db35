#!/bin/sh
# One answer on every processor. Runs tests/c/processors.c on this one and on two that the emulator plays, an old one without SSE4.1
# and AVX2 and a new one with both, and compares; then the programs; then shows how the C library's functions fare.
# processors.sh BUILD: the folder with the program processors, the programs sheet, explain and run, and the files processors.d/calls and
# processors.d/input (recipe_cases of the Rust tests).
set -eu
build=$1
work=$build/processors.d
old=Conroe
# Without what the emulator lacks, so that it has nothing to warn of.
new=Haswell-noTSX,-pcid,-x2apic,-tsc-deadline,-invpcid

on() { # on PROCESSOR PROGRAM WORD..
    case $1 in
    here) shift && "$@" ;;
    old) shift && qemu-x86_64 -cpu "$old" "$@" ;;
    new) shift && qemu-x86_64 -cpu "$new" "$@" ;;
    esac
}

same() { # same WHAT FILE FILE..
    what=$1 first=$2
    shift 2
    for other; do
        cmp "$first" "$other" || { echo "$what: the answers differ" >&2; exit 1; }
    done
}

for processor in here old new; do
    on $processor "$build/processors" cpu >"$work/cpu.$processor"
    echo "$processor: $(cat "$work/cpu.$processor")"
done
grep -q 'SSE4.1 no, AVX2 no' "$work/cpu.old" && grep -q 'SSE4.1 yes, AVX2 yes' "$work/cpu.new" || {
    echo "the emulated processors do not differ as they should" >&2
    exit 1
}

for processor in here old new; do
    on $processor "$build/processors" functions >"$work/functions.$processor"
done
same functions "$work/functions.here" "$work/functions.old" "$work/functions.new"
echo "functions: 18 at two widths, export to halves, sums, differences and products of doubles, a million patterns each, 6 of every half: checksum $(sed -n 's/^all //p' "$work/functions.here"), here and on both"

# Buckets of calls by turns on the one and the other, joined again in their order.
for kind in runs lines sheets explanations; do
    on here "$build/processors" $kind "$work/calls" 0 1 >"$work/$kind.here"
    on old "$build/processors" $kind "$work/calls" 0 2 >"$work/$kind.old"
    on new "$build/processors" $kind "$work/calls" 1 2 >"$work/$kind.new"
    sort -m "$work/$kind.old" "$work/$kind.new" >"$work/$kind.joined"
    same $kind "$work/$kind.here" "$work/$kind.joined"
    echo "$kind: $(grep -c . "$work/$kind.here") calls, buckets by turns on the old and the new: one file of answers, $(cksum <"$work/$kind.here")"
done
[ "$(cut -d ' ' -f 6 "$work/explanations.here" | sort -u | wc -l)" -eq 20 ] || { echo "not every reason came up" >&2; exit 1; }
# Steps 40 to 42 are the ones that a processor would work out in its own way. A text's first line follows its length, and is not seen here.
for opcode in 40 41 42; do
    steps=$(grep -ac "^$opcode[0-9a-f]\{36\}\$" "$work/calls") || true
    [ "$steps" -ge 1000 ] || { echo "step $opcode came up only $steps times" >&2; exit 1; }
done

# The program run: every other frame on the old one. The programs sheet and explain: each; explain on the recipe, and on one whose last step may
# overflow.
sed '/^$/q' "$work/input" >"$work/head"
sed '/^$/d' "$work/head" >"$work/recipe"
sed '1,/^$/d' "$work/input" >"$work/frames"
{ cat "$work/head" && sed -n '1~2p' "$work/frames"; } | on old "$build/run" >"$work/run.old"
{ cat "$work/head" && sed -n '2~2p' "$work/frames"; } | on new "$build/run" >"$work/run.new"
on here "$build/run" <"$work/input" >"$work/run.here"
paste -d '\n' "$work/run.old" "$work/run.new" >"$work/run.joined"
same "the program run" "$work/run.here" "$work/run.joined"
for processor in here old new; do
    on $processor "$build/sheet" <"$work/recipe" >"$work/sheet.$processor"
    on $processor "$build/explain" <"$work/recipe" >"$work/explain.$processor"
    on $processor "$build/explain" <examples/ldexp_out_of_range/recipe >>"$work/explain.$processor"
done
same "the program sheet" "$work/sheet.here" "$work/sheet.old" "$work/sheet.new"
same "the program explain" "$work/explain.here" "$work/explain.old" "$work/explain.new"
[ "$(paste -s -d ' ' "$work/explain.here")" = "00 02000b" ] || { echo "the program explain does not explain" >&2; exit 1; }
grep -qv '^ff' "$work/run.here" && grep -qv '^ff' "$work/sheet.here" || { echo "the programs refuse everything" >&2; exit 1; }
echo "programs: $(grep -c . "$work/run.here") frames by turns through run, $(grep -c . "$work/sheet.here") lines of sheet, and explain: the same bytes"

# The C library's functions are not ours to pass or fail.
for processor in old new; do
    on $processor "$build/processors" libm >"$work/libm.$processor"
done
echo "the C library on the same patterns, old against new:"
agree=
while read -r name hash; do
    if grep -q "^$name *$hash\$" "$work/libm.new"; then
        agree="$agree $name"
    else
        on old "$build/processors" values "$name" >"$work/values.old"
        on new "$build/processors" values "$name" >"$work/values.new"
        { cmp -l "$work/values.old" "$work/values.new" || true; } | awk '{ print int(($1 - 1) / 8) }' | uniq | wc -l |
            while read -r count; do echo "  $name differs on $count of 1000000"; done
    fi
done <"$work/libm.old"
echo "  no difference:$agree"
