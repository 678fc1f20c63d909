#!/bin/sh
# Builds the program that prints the texts of the Rust formatters:  build.sh FOLDER [OUT]
# FOLDER holds op_code_fmt.rs and instruction_fmt.rs of iced-x86 1.21.0; OUT is the program to write.
set -eu

[ $# -ge 1 ] || { echo "usage: build.sh FOLDER [OUT]" >&2; exit 2; }
here=$(cd "$(dirname "$0")" && pwd)
out=${2:-$here/../../target/reference/reference}

room=$(mktemp -d)
trap 'rm -rf "$room"' EXIT
cp -R "$here/shim/." "$room"

# The formatter files, under their own names or as text files whose names end in them.
for name in op_code_fmt instruction_fmt; do
    for file in "$1/$name.rs" "$1"/*--"$name.rs.txt"; do
        [ ! -f "$file" ] || cp "$file" "$room/encoder/$name.rs"
    done
    [ -f "$room/encoder/$name.rs" ] || { echo "build.sh: $1 has no $name.rs" >&2; exit 2; }
done

compile() {
    rustc --edition 2021 -O -C overflow-checks=no -C debug-assertions=no --out-dir "$room" -L "$room" "$@"
}
cd "$room"
compile --crate-type rlib --crate-name rows row.rs
compile --crate-type rlib --crate-name inside --extern rows --cfg fpu lib.rs
compile --crate-type rlib --crate-name outside --extern rows lib.rs
compile --crate-name reference --extern rows --extern inside --extern outside main.rs
cd "$OLDPWD"

mkdir -p "$(dirname "$out")"
cp "$room/reference" "$out"
