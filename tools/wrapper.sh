# What the scripts in the root share: each runs a program that reads a sheet. To be sourced.
set -euo pipefail
root=$(cd "$(dirname "${BASH_SOURCE[0]}")/.." && pwd)

# run_on_sheet PROGRAM MAKES [ARGUMENTS...]: the program makes what MAKES says of a sheet: the file that is named, or standard input where none
# is or where it is -. A wrong use gets one line on standard error and status 2; the program is proved and built where it has to be, and what
# that says goes there too.
run_on_sheet() {
    local program=$1 makes=$2 use="give it a sheet, as in ./$1 examples/panel.sheet or ./$1 < examples/panel.sheet"
    shift 2
    case $#:${1-} in
    0: | 1:-) ;;
    1:-h | 1:--help)
        echo "$program writes $makes of a sheet to standard output: $use. docs/SHEETS.md says how a sheet is written."
        exit
        ;;
    1:-*) wrong "$program has no option $1: $use" ;;
    1:?*) open_sheet "$program" "$1" ;;
    *) wrong "$program takes one sheet: $use" ;;
    esac
    look_at_input "$program" "$use"
    build_program "$program"
    exec "$root/crates/$program/out/$program"
}

# The file becomes standard input. Looked at before it is opened, since opening a pipe twice would end its writer.
open_sheet() {
    if [ ! -e "$2" ]; then wrong "$1 can't read $2: there is no such file"; fi
    if [ -d "$2" ]; then wrong "$1 can't read $2: it is a folder"; fi
    if [ ! -r "$2" ]; then wrong "$1 can't read $2: it may not be read"; fi
    exec <"$2"
}

wrong() {
    echo "$1" >&2
    exit 2
}

# An empty file is a sheet too, refused as such, so that the program still runs on it. A pipe tells nothing before it is read.
look_at_input() {
    if [ ! -e /dev/stdin ]; then wrong "$1 has no standard input: $2"; fi
    if [ -t 0 ]; then wrong "$1 does not read a sheet from a terminal: $2"; fi
    if [ /dev/stdin -ef /dev/null ] || { [ -f /dev/stdin ] && [ ! -s /dev/stdin ]; }; then echo "$1 was given an empty sheet: $2" >&2; fi
}

# At first use, and where a source is newer.
build_program() {
    local built=$root/crates/$1/out/$1
    if [ -e "$built" ] && [ -z "$(find "$root/crates.txt" "$root"/crates/*/src -newer "$built" -print -quit)" ]; then return; fi
    if ! command -v rt >/dev/null; then wrong "$1 has to be built first, and there is no rt here: it needs the Rattle kit"; fi
    echo "$1 is proved and built first, which takes some minutes" >&2
    # It proves, builds and runs: here on an empty input, whose list or drawing nobody asked for.
    (cd "$root/crates/$1" && rt run </dev/null >/dev/null)
    touch -c "$built"
}
