# What the scripts here share. To be sourced in the repository's root, under set -euo pipefail.
. tools/libraries.sh

# need_cargo WHAT: ends with status 3 where WHAT cannot be built.
need_cargo() {
    local tool
    for tool in cargo rustc; do
        if ! command -v "$tool" >/dev/null 2>&1; then
            echo "skipped: $1 (no cargo here)"
            exit 3
        fi
    done
}

# build_probes NAME...: the static libraries of these crates.
build_probes() {
    build_libraries "$@"
    export PROBE_LIB_DIR="$PWD/target/staticlib"
}

# egui's sources are not kept here: copies go below oracle/target, byte for byte. `egui` is then the
# last of the files that are there, each of which needs the ones before it.
copy_egui() {
    local sources="${EGUI_SRC:-../shared/docs/src}" name lacks=
    export EGUI_COPY="$PWD/oracle/target/egui"
    egui=
    for name in layout grid placer; do
        if [ ! -e "$sources/$name.rs" ] || [ -n "$lacks" ]; then
            echo "skipped: the comparison with $name.rs (no source: set EGUI_SRC)"
            lacks=1
            continue
        fi
        mkdir -p "$EGUI_COPY"
        cmp -s "$sources/$name.rs" "$EGUI_COPY/$name.rs" || cp "$sources/$name.rs" "$EGUI_COPY/$name.rs"
        cmp "$sources/$name.rs" "$EGUI_COPY/$name.rs"
        egui=$name
    done
}

# build PROFILE PACKAGE [WORDS...]: its program goes to oracle/target/PROFILE.
build() {
    cargo build --offline --locked --quiet --profile "$1" -p "${@:2}" \
        --manifest-path oracle/Cargo.toml --target-dir oracle/target </dev/null
}

# The comparison, with what there is of egui.
build_compare() {
    build_probes $(cat oracle/probes.txt)
    copy_egui
    build release compare ${egui:+--features "$egui"}
}
