#!/bin/sh
# Sets up and runs the main job on an example: proves and builds the program `fill_case`, then runs it on a case file and shows what it prints.
#
#     ./run-example.sh [FILE]        FILE is a case file; without it, examples/one-ruled-out.case
set -e
file=${1:-"$(dirname "$0")/examples/one-ruled-out.case"}
case $file in
    /*) ;;
    *) file=$PWD/$file ;;
esac
cd "$(dirname "$0")/crates/fill_case"
echo "fill_case < $(basename "$file")"
mkdir -p out
if ! rt run <"$file" 2>out/setup.log; then
    cat out/setup.log
    exit 1
fi
