# Sets `rust`, the folder with desk, bench and pretend_units, and builds them first where they are not built of the sources as they stand. A command that has sourced
# tools/command.sh sources this file. POSIX sh.
rust=$top/deskside/target/release
if [ ! -x "$rust/desk" ] || [ -n "$(find "$top/deskside/src" "$top/deskside/Cargo.toml" -newer "$rust/desk")" ]; then
    command -v cargo >/dev/null || stop "cargo is needed to build the programs around host"
    cargo build --release --quiet --offline --manifest-path "$top/deskside/Cargo.toml" --target-dir "$top/deskside/target" >&2 || stop "the programs around host could not be built, as said above"
    touch "$rust/desk"
fi
