#!/bin/sh
# Builds musl's and newlib's versions of the timed functions, under the names musl_floor and newlib_floor, so that one binary can
# hold them beside glibc's, and Imath's conversions of halves: references.sh OUT writes OUT/musl.o, OUT/newlib.o, OUT/imath.o, OUT/versions.h and
# OUT/libraries, what to link besides. A library that is not installed gives an empty object and a line that says so.
set -eu
here=$(cd "$(dirname "$0")" && pwd)
out=$1
cc=${CC:-gcc}
names=$(sed -n 's/^    [A-Z]*(\([a-z]*\),.*/\1/p' "$here/functions.h")
mkdir -p "$out"

empty() { echo | "$cc" -x c -c - -o "$1"; }
version() { dpkg-query -W -f '${Version}' "$1" 2>/dev/null || echo "version unknown"; }

# musl comes compiled. The linker takes what the names need, and what that needs, out of its archive.
musl="not installed: make bench-deps"
archive=$(ls /usr/lib/*-linux-musl/libc.a 2>/dev/null | head -n 1)
if [ -n "$archive" ]; then
    objcopy --set-section-alignment '.text*=64' "$archive" "$out/musl.a"
    ld -r $(printf ' -u %s' $names) $(printf ' -u %sf' $names) "$out/musl.a" -o "$out/musl-plain.o"
    objcopy --prefix-symbols=musl_ "$out/musl-plain.o" "$out/musl.o"
    musl=$(version musl-dev)
else
    empty "$out/musl.o"
fi

# newlib comes as source. Its generic C files are one a function and width (s_ for double, sf_ for float; fmod and remainder have a
# wrapper w_ around e_); beside the timed ones those that they call.
newlib="not installed: make bench-deps"
source=$(ls /usr/src/newlib/newlib-*.tar.* 2>/dev/null | head -n 1)
if [ -n "$source" ]; then
    mkdir -p "$out/newlib"
    tar -xf "$source" -C "$out/newlib" --strip-components=2 --wildcards \
        '*/newlib/libm/common' '*/newlib/libm/math' '*/newlib/libc/include'
    objects=
    for name in $names rint scalbn copysign fabs finite fpclassify; do
        case $name in
        fmod | remainder) files="w_$name wf_$name e_$name ef_$name" ;;
        *) files="s_$name sf_$name" ;;
        esac
        for file in $files; do
            "$cc" -O2 -D_IEEE_LIBM -falign-functions=64 -w -fno-builtin -nostdinc -isystem "$("$cc" -print-file-name=include)" \
                -I "$out/newlib/libc/include" -I "$out/newlib/libm/common" -c "$(ls "$out/newlib/libm"/*/"$file.c")" -o "$out/newlib/$file.o"
            objects="$objects $out/newlib/$file.o"
        done
    done
    echo 'int *__errno(void) { static int number; return &number; }' | "$cc" -O2 -x c -c - -o "$out/newlib/errno.o"
    ld -r $objects "$out/newlib/errno.o" -o "$out/newlib-plain.o"
    objcopy --prefix-symbols=newlib_ "$out/newlib-plain.o" "$out/newlib.o"
    newlib=$(version newlib-source)
else
    empty "$out/newlib.o"
fi

# Imath comes as a header, and a library with the table that the header reads.
imath="not installed: make bench-deps" libraries=
if echo '#include <Imath/half.h>' | "$cc" -E -x c - >/dev/null 2>&1; then
    cat >"$out/imath.c" <<'END'
#include <Imath/half.h>
float imath_import(uint16_t x) { return imath_half_to_float(x); }
uint16_t imath_export(float x) { return imath_float_to_half(x); }
END
    "$cc" -O2 -falign-functions=64 -c "$out/imath.c" -o "$out/imath.o"
    imath=$(version libimath-dev) libraries=-lImath
else
    empty "$out/imath.o"
fi
echo "$libraries" >"$out/libraries"

printf '#define MUSL_VERSION "%s"\n#define NEWLIB_VERSION "%s"\n#define IMATH_VERSION "%s"\n' "$musl" "$newlib" "$imath" >"$out/versions.h"
