#!/usr/bin/env bash
# Makes the stored sample that crates/reference replays: rows chosen for coverage, each followed by the two texts that the
# Rust formatters in FOLDER print of it. Usage: store.sh FOLDER [ROWS]
set -euo pipefail
folder=${1:?usage: store.sh FOLDER [ROWS]}
rows=${2:-3000}
here=$(cd "$(dirname "${BASH_SOURCE[0]}")" && pwd)
crate=$here/../../crates/reference
work=$(mktemp -d)
trap 'rm -rf "$work"' EXIT

"$here/build.sh" "$folder" "$work/reference"
python3 -B "$here/generate.py" --stored --rows "$rows" > "$work/rows" 2> "$work/coverage"
"$work/reference" < "$work/rows" > "$work/answers"
# a row, then its two answers without their number
awk 'NR == FNR { row[FNR - 1] = $0; next }
    { k = $1; sub(/^[0-9]+ /, ""); if ($0 ~ /^op=/) print row[k]; print }' "$work/rows" "$work/answers" > "$crate/stdin"
made=$(wc -l < "$work/rows")
printf '%s rows, 0 differences\n' "$made" > "$crate/stdout"
echo "$made rows stored in crates/reference/stdin"
