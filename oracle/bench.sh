# What oracle/bench builds and measures besides times. To be sourced under set -euo pipefail.

need_binutils() {
    local tool
    for tool in size nm objcopy; do
        if ! command -v "$tool" >/dev/null 2>&1; then
            echo "skipped: the timing (no $tool here: it comes with gcc's binutils)"
            exit 3
        fi
    done
}

timed_probes="probe_sheet probe_listing probe_records"

# In the folder of a tree: the probes that are timed, and what a customer links or runs.
build_timed() {
    . tools/libraries.sh
    build_libraries $timed_probes embed
    # On an input each program is built where it has to be.
    ./platelist examples/panel.sheet >/dev/null
    ./platedraw examples/panel.sheet >/dev/null
}

# rename_probes FROM TO: copies of an earlier tree's probes, whose entry points are called before_NAME, so that both can be linked.
rename_probes() {
    local name
    rm -rf "$2"
    mkdir -p "$2"
    for name in $timed_probes; do
        nm --defined-only --extern-only --format=posix "$1/lib$name.a" |
            awk 'NF > 1 { print $1, "before_" $1 }' >"$2/$name.names"
        objcopy --redefine-syms="$2/$name.names" "$1/lib$name.a" "$2/libbefore_$name.a"
    done
}

# sizes FILE: bytes of read-only data, and of code.
sizes() {
    size -A "$1" | awk '$1 ~ /^\.rodata/ { data += $2 } $1 ~ /^\.text/ { code += $2 } END { printf "%10d%10d", data, code }'
}

# show_sizes HERE [EARLIER]: of what a customer links or runs.
show_sizes() {
    local file
    printf '%-30s%10s%10s' "read-only memory, in bytes" data code
    if [ $# -eq 2 ]; then printf '%14s%10s' "before: data" code; fi
    printf '\n'
    for file in crates/platelist/out/platelist crates/platedraw/out/platedraw target/staticlib/libembed.a; do
        printf '%-30s%s' "$(basename "$file")" "$(sizes "$1/$file")"
        if [ $# -eq 2 ]; then printf '    %s' "$(sizes "$2/$file")"; fi
        printf '\n'
    done
}
