#!/bin/sh
# Compares both texts with those of the Rust formatters, byte for byte:  compare.sh FOLDER [ROWS] [SEED]
# FOLDER is the one that build.sh takes. Settings: OURS is our program, BATCH the number of rows in one job.
set -eu
export LC_ALL=C

[ $# -ge 1 ] || { echo "usage: [OURS=PROGRAM] [BATCH=N] compare.sh FOLDER [ROWS] [SEED]" >&2; exit 2; }
here=$(cd "$(dirname "$0")" && pwd)
rows=${2:-100000}
seed=${3:-1}
ours=${OURS:-$here/../../crates/archive/out/archive}
batch=${BATCH:-5000}
[ -x "$ours" ] || { echo "compare.sh: no program $ours: set OURS, or run rt run < stdin in crates/archive" >&2; exit 2; }

room=$(mktemp -d)
trap 'rm -rf "$room"' EXIT
"$here/build.sh" "$1" "$room/reference"
python3 -B "$here/generate.py" --rows "$rows" --seed "$seed" >"$room/rows" 2>"$room/coverage"
split -l "$batch" -a 5 "$room/rows" "$room/batch."

# Prints the row and both lines for each line that differs.
differing() {
    awk '
        FILENAME == ARGV[1] { row[FNR - 1] = $0; next }
        FILENAME == ARGV[2] { theirs[FNR] = $0; lines = FNR; next }
        theirs[FNR] != $0 { say(FNR, $0) }
        { seen = FNR }
        END { for (n = seen + 1; n <= lines; n++) say(n, "(no line)") }
        function say(n, mine) { printf "%s | theirs: %s | ours: %s\n", row[int((n - 1) / 2)], theirs[n], mine }
    ' "$@"
}

for rows_of_job in "$room"/batch.*; do
    { cat "$rows_of_job"; echo texts; } >"$room/job"
    "$room/reference" <"$room/job" >"$room/theirs"
    "$ours" <"$room/job" >"$room/ours" || echo "our program ended with status $?" >>"$room/differences"
    cmp -s "$room/theirs" "$room/ours" && continue
    differing "$rows_of_job" "$room/theirs" "$room/ours" >"$room/found"
    [ -s "$room/found" ] || echo "the bytes differ though the lines do not" >"$room/found"
    cat "$room/found" >>"$room/differences"
done

touch "$room/differences"
cat "$room/coverage"
head -n 20 "$room/differences"
echo "differences: $(wc -l <"$room/differences")"
[ ! -s "$room/differences" ]
