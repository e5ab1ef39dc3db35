#!/bin/sh
# Reads the machine code of the library's functions, whatever the compiler made of the source: none may touch a floating-point
# register. None may divide, and none may call or jump to another, but the remainders (fmod, remainder, remquo), which have parts that they
# share with each other and with recipes; what they call is read with them. frexp and ldexp bring a subnormal number to its leading one by one
# count, without a loop. The library as a whole, recipes' steps in it, works on no float, keeps no state and asks for nothing but what moves
# memory. Of the archive for cross checks, sums, differences and products in whole numbers touch no floating-point register either and do not
# divide; those on floats have the processor's instruction, which shows that it would be seen.
# machine_code.sh LIBRARY CROSS_CHECK
set -eu
library=$1 cross_check=$2
functions="floor ceil trunc round nearbyint lround fabs negate classify modf frexp ldexp fmod remainder remquo nextafter fmin fmax"
floating='%[xyz]mm|[[:space:]]f[a-z]+[[:space:]]+%?st'
divides='[[:space:]]i?div[a-z]*[[:space:]]'
# A call, or a jump out of the function, has a relocation of the kind PLT32.
calls='[[:space:]]call[a-z]*[[:space:]]|R_X86_64_PLT32'
count='[[:space:]](bsr|lzcnt)[a-z]*[[:space:]]'
# code_of FUNCTION: its instructions and relocations, in the archive that is being read.
archive=$library
code_of() {
    objdump -dr --no-show-raw-insn --disassemble="$1" "$archive" | sed -n "/<$1>:/,\$p"
}
# code_from FUNCTION: the same, and of all that it calls. The relocation of a function that the library keeps to itself names its section, .text. and
# the function's name, with unlikely. between where the compiler takes it to be called seldom.
code_from() {
    names=$1 at=0
    while [ "$at" -lt "$(echo "$names" | wc -l)" ]; do
        at=$((at + 1))
        part=$(code_of "$(echo "$names" | sed -n "${at}p")")
        [ -n "$part" ] || return 1
        echo "$part"
        names=$(printf '%s\n%s\n' "$names" "$(echo "$part" | sed -n 's/.*R_X86_64_PLT32[[:space:]]*\(\.text\.\(unlikely\.\)*\)*\(.*\)-0x.*/\3/p')" | awk 'NF && !seen[$0]++')
    done
}
# The instructions that work on floats: those of the old floating-point unit, and on its later registers all but moves, whole numbers and bits.
on_floats() {
    awk '$1 !~ /^[0-9a-f]+:$/ || $2 ~ /^R_/ { next }
        $2 ~ /^f/ { print }
        /%[xyz]mm/ && $2 !~ /^(mov[a-z0-9]*|p[a-z0-9]*|(and|andn|or|xor|shuf|unpck[lh])p[sd])$/ { print }'
}
# How many of a function's instructions can be reached again from themselves.
in_loops() {
    awk 'function value(digits,  i, v) {
            for (i = 1; i <= length(digits); i++)
                v = 16 * v + index("0123456789abcdef", substr(digits, i, 1)) - 1
            return v
        }
        function reaches(i, goal) {
            if (seen[i]++)
                return i == goal
            if (operation[i] ~ /^j/ && reaches(place[target[i]], goal))
                return 1
            return operation[i] !~ /^(ret|jmp)/ && i < n && reaches(i + 1, goal)
        }
        $1 ~ /^[0-9a-f]+:$/ && $2 !~ /^R_/ {
            operation[++n] = $2
            target[n] = value($3)
            place[value(substr($1, 1, length($1) - 1))] = n
        }
        END {
            for (i = 1; i <= n; i++) {
                split("", seen)
                loops += reaches(i, i)
            }
            print loops + 0
        }'
}
# Each at two widths; halves have the roundings and two conversions.
symbols=
for name in $functions; do
    symbols="$symbols ew_${name}_f64 ew_${name}_f32"
done
for name in floor_f16 ceil_f16 trunc_f16 round_f16 nearbyint_f16 f16_to_f32 f32_to_f16; do
    symbols="$symbols ew_$name"
done
checked=0
for symbol in $symbols; do
    case $symbol in
    ew_fmod_* | ew_remainder_* | ew_remquo_*) wrong="$floating" read_by=code_from ;;
    *) wrong="$floating|$divides|$calls" read_by=code_of ;;
    esac
    if ! code=$($read_by "$symbol") || [ -z "$code" ]; then
        echo "$symbol, or what it calls, is not in $library" >&2
        exit 1
    fi
    if echo "$code" | grep -E "$wrong"; then
        echo "$symbol: the lines above should not be there" >&2
        exit 1
    fi
    case $symbol in
    ew_frexp_* | ew_ldexp_*)
        counts=$(echo "$code" | grep -cE "$count" || true)
        loops=$(echo "$code" | in_loops)
        if [ "$counts" != 1 ] || [ "$loops" != 0 ]; then
            echo "$symbol counts leading zeros $counts times, and $loops of its instructions stand in a loop" >&2
            exit 1
        fi
        ;;
    esac
    checked=$((checked + 1))
done
works_on=$(objdump -d --no-show-raw-insn "$library" | on_floats)
if [ -n "$works_on" ]; then
    echo "$works_on" >&2
    echo "$library: the lines above work on floats" >&2
    exit 1
fi
archive=$cross_check
for name in sum:addsd difference:subsd product:mulsd; do
    symbol=ew_check_${name%:*} on_float=ew_check_float_${name%:*} instruction=${name#*:}
    if ! code=$(code_from "$symbol") || ! float_code=$(code_from "$on_float"); then
        echo "$symbol or $on_float, or what it calls, is not in $cross_check" >&2
        exit 1
    fi
    if { echo "$code" | on_floats && echo "$code" | grep -E "$floating|$divides"; } | grep .; then
        echo "$symbol: the lines above should not be there" >&2
        exit 1
    fi
    if ! echo "$float_code" | on_floats | grep -q "[[:space:]]$instruction[[:space:]]"; then
        echo "$on_float has no $instruction, or it is not seen" >&2
        exit 1
    fi
done
writable=$(objdump -h "$library" | awk '$2 ~ /^\.t?(data|bss)/ && $2 !~ /^\.data\.rel\.ro/ && $3 !~ /^0+$/ { print $2 }')
if [ -n "$writable" ]; then
    echo "$library keeps state: $writable" >&2
    exit 1
fi
outside=$(nm -u "$library" | awk 'NF == 2 && $2 !~ /^(mem(cpy|move|set|cmp)|bcmp)$/ { print $2 }')
if [ -n "$outside" ]; then
    echo "$library asks for $outside" >&2
    exit 1
fi
echo "$checked functions touch no floating-point register; but for fmod, remainder and remquo none divides or calls another; one count and no loop in frexp and ldexp; no float in recipes, and none in sums and products but those on floats; no state"
