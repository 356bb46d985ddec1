# The crates' static libraries, for C and Rust to link. To be sourced in the repository's root, under set -euo pipefail.

# build_libraries NAME...: target/staticlib/libNAME.a of each, where a source is newer. One after the other: what stands below them is proved once.
build_libraries() {
    local name lib
    mkdir -p target/staticlib
    for name; do
        lib=target/staticlib/lib$name.a
        # Folders count too: theirs is the time that a removed file changes.
        if [ -e "$lib" ] && [ -z "$(find crates.txt crates/*/src -newer "$lib" -print -quit)" ]; then continue; fi
        build_library "$name" || exit 1
        cp "crates/$name/out/lib$name.a" "$lib"
    done
}

# What rt says is shown where it fails; else its last line.
build_library() {
    local said
    said=$(mktemp)
    if (cd "crates/$1" && rt lib) </dev/null >"$said" 2>&1; then
        echo "$1: $(tail -n 1 "$said")"
        rm -f "$said"
    else
        cat "$said"
        rm -f "$said"
        return 1
    fi
}
