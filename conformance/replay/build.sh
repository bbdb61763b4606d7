# Sourced by `make` and `run`. Builds the program against the original in $room: $room/strict reads keys in ascending
# order alone, $room/any-order in any order, and $room/original answers each question by one of them. The original is a
# folder with its sources, or `registry`.
build_replay() {
    local original cargo=(cargo)
    if [ "$1" = registry ]; then
        original='version = "=1.8.1"'
    else
        original="path = \"$(realpath "$1")\""
        # Where the folder's own dependencies come from, if it says so.
        if [ -f "$1/.cargo/config.toml" ]; then
            cargo+=(--config "$(realpath "$1")/.cargo/config.toml")
        fi
    fi
    mkdir -p "$room/replay"
    cp -r conformance/replay/src "$room/replay/src"
    cat >"$room/replay/Cargo.toml" <<TOML
[package]
name = "replay"
version = "0.0.0"
edition = "2024"

[features]
strict = ["borsh/de_strict_order"]

[dependencies]
borsh = { $original, features = ["unstable__schema", "rc", "bytes", "indexmap", "uuid"] }
bytes = "1"
indexmap = ">=1.9, <3"
uuid = "1"
TOML
    (
        cd "$room/replay"
        "${cargo[@]}" build --release --quiet --target-dir target
        cp target/release/replay "$room/any-order"
        "${cargo[@]}" build --release --quiet --target-dir target --features strict
        cp target/release/replay "$room/strict"
    )
    # Each of the two leaves the questions of the other unanswered.
    cat >"$room/original" <<SH
#!/usr/bin/env bash
set -eu
part=\$(mktemp -d)
trap 'rm -rf "\$part"' EXIT
tee "\$part/questions" | "$room/strict" answer >"\$part/strict"
"$room/any-order" answer <"\$part/questions" >"\$part/any-order"
paste -d '' "\$part/strict" "\$part/any-order"
SH
    chmod +x "$room/original"
}

# Writes the rows of the questions in $room/questions to $1, and those that the original answers otherwise to $2.
write_rows() {
    "$room/any-order" answer all <"$room/questions" >"$room/answers"
    "$room/strict" rows "$room/questions" "$room/answers" "$1" "$2"
}
