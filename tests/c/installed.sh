#!/bin/sh
# Installs into a folder, and uses what stands there as a stranger would; then the same with a folder whose name has spaces and a quote.
# installed.sh FOLDER
set -eu
folder=$1
strange="$folder in a stranger's place"
files="bin/estrenwind
bin/explain
bin/run
bin/sheet
include/estrenwind.h
lib/libestrenwind.a
lib/pkgconfig/estrenwind.pc
share/bash-completion/completions/estrenwind
share/man/man1/estrenwind.1
share/man/man1/explain.1
share/man/man1/run.1
share/man/man1/sheet.1"
version=$(sed -n 's/^VERSION = //p' Makefile)

fail() {
    echo "$1" >&2
    exit 1
}

installed() { # installed FOLDER: what stands there, sorted
    (cd "$1" && find . -type f | sed 's|^\./||' | LC_ALL=C sort)
}

# A staged install says PREFIX of itself, wherever it stands meanwhile.
staged() { # staged DESTDIR PREFIX
    rm -rf "$1"
    make --no-print-directory -s install PREFIX="$2" DESTDIR="$1"
    [ "$(installed "$1$2")" = "$files" ] || fail "$1: a staged install has other files"
    grep -qxF "prefix=$2" "$1$2/lib/pkgconfig/estrenwind.pc" || fail "$1: a staged install has another prefix"
    make --no-print-directory -s uninstall PREFIX="$2" DESTDIR="$1"
    [ -z "$(installed "$1")" ] || fail "$1: uninstall leaves files"
    rm -rf "$1"
}

recipe="010000c004000000000000401d000000000000
10000000000000000000000000000000000000
18010000000000000000000000000000000000"

used() { # used FOLDER: installs there, uses what is installed, and removes it
    rm -rf "$1"
    make --no-print-directory -s install PREFIX="$1"
    [ "$(installed "$1")" = "$files" ] || fail "$1: an install has other files"

    # The programs, on document 01's example.
    [ "$(echo "$recipe" | "$1/bin/sheet" | tail -n 1)" = 020201fffffffffffffffd0000000000000007 ] || fail "$1: the installed sheet is wrong"
    [ "$(printf '%s\n\nbfe0000000000000\n' "$recipe" | "$1/bin/run")" = 02ffffffffffffffff ] || fail "$1: the installed run is wrong"
    [ "$(echo "$recipe" | "$1/bin/explain")" = 00 ] || fail "$1: the installed explain is wrong"

    # The command, from another folder than the one it was built in.
    [ "$("$1/bin/estrenwind" --version)" = "estrenwind $version" ] || fail "$1: the installed command has another version"
    [ "$(echo "$recipe" | "$1/bin/estrenwind" sheet --hex - | tail -n 1)" = 020201fffffffffffffffd0000000000000007 ] || fail "$1: the installed command is wrong"

    if command -v pkg-config >/dev/null; then
        export PKG_CONFIG_PATH="$1/lib/pkgconfig"
        [ "$(pkg-config --modversion estrenwind)" = "$version" ] || fail "$1: pkg-config has another version"
        [ "$(pkg-config --variable=libdir estrenwind)" = "$1/lib" ] || fail "$1: pkg-config has another folder"
        # The flags are words of the shell, with what is special in them quoted.
        eval "${CC:-gcc} -std=c99 -Wall -Wextra -Wpedantic -Werror tests/c/installed.c $(pkg-config --cflags --libs estrenwind) -o \"\$1.program\""
        [ "$("$1.program")" = "$version" ] || fail "$1: the C program is wrong: $("$1.program")"
        rm "$1.program"
        if command -v cargo >/dev/null; then
            env -u ESTRENWIND_LIB_DIR CARGO_TARGET_DIR="$folder.cargo" cargo run --offline --quiet --manifest-path bindings/rust/Cargo.toml \
                --example texture_index >/dev/null
        fi
    fi

    if command -v man >/dev/null && command -v groff >/dev/null; then
        for page in sheet run explain estrenwind; do
            warnings=$(LC_ALL=C.UTF-8 man --warnings -E UTF-8 -l "$1/share/man/man1/$page.1" 2>&1 >/dev/null)
            [ -z "$warnings" ] || fail "$page.1: $warnings"
        done
    fi

    make --no-print-directory -s uninstall PREFIX="$1"
    [ -z "$(installed "$1")" ] || fail "$1: uninstall leaves files"
    rm -rf "$1"
}

for tool in pkg-config cargo man groff; do
    command -v $tool >/dev/null || echo "$tool is missing: what needs it is left out"
done
staged "$folder.staged" /usr
staged "$strange.staged" "/opt/a place's & name"
used "$folder"
used "$strange"
rm -rf "$folder.cargo"
echo "installed, used and removed again: 12 files, under a plain name and under one with spaces"
