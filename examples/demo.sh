#!/bin/sh
# Takes an example through the command estrenwind: demo.sh COMMAND EXAMPLE
set -eu
command=$1
example=$2

# A command that refuses something ends with 1 or 3, and that is no failure of the demonstration.
show() {
    echo
    echo "\$ estrenwind $*"
    status=0
    "$command" "$@" || status=$?
    case $status in
    0 | 1 | 3) ;;
    *) exit $status ;;
    esac
}

sed -n '1s/^# //p' "$example/README.md"
echo
echo "\$ cat $example/recipe.ew"
cat "$example/recipe.ew"
show sheet "$example/recipe.ew"
show run --decimal "$example/recipe.ew" "$example/frames.txt"
show run --trace 2 --decimal "$example/recipe.ew" "$example/frames.txt"
echo
echo "$example/README.md says what each line is for."
