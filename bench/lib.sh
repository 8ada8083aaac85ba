# What the benchmarks share. Each reads this file at the top of the repository.

work=$(mktemp -d)
trap 'rm -rf "$work"' EXIT
trap 'exit 1' INT TERM HUP

# needs PACKAGE: installs Debian's package where it isn't installed.
needs() {
    dpkg -s "$1" > /dev/null 2>&1 || { apt-get -qq update && apt-get -qq install -y --no-install-recommends "$1"; } >&2
}

# rattle_program NAME CRATE..: proves and builds the program whose main.rt is standard input, over copies of this
# repository's crates in a folder of its own, and prints where the program is. It stands on the crates that are named
# and on anyhow. What it needs of proofs stands in the folder $work/proofs, if there is one, and what it reads when it
# is tried in the file $work/input. Crates that were checked on this machine as they are, by bin/prove say, aren't proved
# again: the toolchain begins with what it kept of these checks, in whatever folder they were.
rattle_program() {
    name=$1
    shift
    folder=$work/$name
    mkdir "$folder"
    tar -c --exclude=out crates crates.txt HANDLES | tar -x -C "$folder"
    mkdir -p "$folder/crates/$name/src"
    cat > "$folder/crates/$name/src/main.rt"
    if [ -d "$work/proofs" ]; then
        cp -R "$work/proofs" "$folder/crates/$name"
    fi
    echo "$name: $* anyhow" >> "$folder/crates.txt"
    [ -e "$work/input" ] || : > "$work/input"
    (cd "$folder/crates/$name" && rt run < "$work/input") > "$folder/log" 2>&1 || {
        cat "$folder/log" >&2
        return 1
    }
    echo "$folder/crates/$name/out/$name"
}

# rust_program FILE: builds the Rust program in the file, in place of the one before, and prints where it is.
rust_program() {
    rustc --edition 2024 -O -o "$work/plain" "$1" && echo "$work/plain"
}

# cargo_program NAME: builds the Rust program in the folder bench/NAME with Debian's serde_json, and prints where it is.
cargo_program() {
    needs librust-serde-json-dev
    (cd "bench/$1" && CARGO_TARGET_DIR="$work/target" cargo build --release --offline) > "$work/log" 2>&1 || {
        cat "$work/log" >&2
        return 1
    }
    echo "$work/target/release/$1"
}

# measure_session NAME LINES PROGRAM WORD..: the least processor seconds of three runs over the lines, and the peak memory, in a line.
measure_session() {
    name=$1
    input=$2
    shift 2
    for _ in 1 2 3; do
        /usr/bin/time -f '%U %S %M' "$@" < "$input" 2>&1 > "$work/replies" | tail -n 1
    done | awk -v name="$name" '
        { seconds = $1 + $2; if (NR == 1 || seconds < least) least = seconds; if ($3 > peak) peak = $3 }
        END { printf "%s %.2f %d\n", name, least, peak }'
}

# measure_runs NAME COUNT INPUT PROGRAM WORD..: the least milliseconds of processor time of a run on the input, by five times so many runs,
# and the peak memory, in a line.
measure_runs() {
    name=$1
    count=$2
    input=$3
    shift 3
    for _ in 1 2 3 4 5; do
        # shellcheck disable=SC2016
        /usr/bin/time -f '%U %S %M' sh -c 'turns=$1
        shift
        for _ in $turns; do
            "$@" < "$0" > /dev/null
        done' "$input" "$(seq "$count")" "$@" 2>&1 | tail -n 1
    done | awk -v name="$name" -v count="$count" '
        { spent = 1000 * ($1 + $2) / count; if (NR == 1 || spent < least) least = spent; if ($3 > peak) peak = $3 }
        END { printf "%s %.2f %d\n", name, least, peak }'
}

# proved_program NAME: proves and builds a program of this repository, where it isn't for the sources as they are, and prints where it is.
proved_program() (
    top=$PWD
    . bin/lib.sh
    it=$(built "$1" proved "$(sum_of "$1")")
    [ -x "$it" ] || bin/prove "$1" >&2
    [ -x "$it" ] && echo "$it"
)

# compare_sessions RATTLE RUST: runs netsched, and the desk in plain Rust, over the lines of $work/whole and over those of $work/half.
# Says how long each takes and how much memory. The replies have to be the same bytes.
compare_sessions() {
    needs time
    for part in whole half; do
        "$1" session < "$work/$part" > "$work/one"
        "$2" < "$work/$part" | cmp - "$work/one" || return 1
    done
    for part in whole half; do
        measure_session rattle "$work/$part" "$1" session
        measure_session rust "$work/$part" "$2"
        echo "lines $(wc -l < "$work/$part") 0"
    done | awk '
        { seconds[$1] = $2; peak[$1] = $3 }
        $1 == "lines" {
            printf "%d lines: %.2f s (%.1f us a line) and %d KiB in Rattle, %.2f s (%.1f us) and %d KiB in Rust, ratio of times %.2f\n", \
                $2, seconds["rattle"], 1000000 * seconds["rattle"] / $2, peak["rattle"], \
                seconds["rust"], 1000000 * seconds["rust"] / $2, peak["rust"], seconds["rattle"] / seconds["rust"]
            if (whole == 0) whole = seconds["rattle"]
        }
        END { printf "twice the lines take %.2f times as long in Rattle\n", whole / seconds["rattle"] }'
}

# on_input NAME FILE PROGRAM WORD..: writes a command that runs the program with these words on the file, and prints where it is. What
# the program says on standard error is kept in the file $work/NAME.said.
on_input() {
    command=$work/$1
    said=$work/$1.said
    input=$2
    shift 2
    printf '#!/bin/sh\nexec "%s" %s < "%s" 2> "%s"\n' "$1" "$(shift && echo "$*")" "$input" "$said" > "$command"
    chmod +x "$command"
    echo "$command"
}

# changed_document EDIT: the document of standard input after an edit in Python for each request of each group of its snapshot.
changed_document() {
    /usr/bin/python3 -c '
import json, sys
document = json.load(sys.stdin)
snapshot = document["snapshot"]
for group in snapshot["groups"]:
    for request in group["requests"]:
        exec(sys.argv[1])
json.dump(document, sys.stdout)' "$1"
}

# compare RATTLE RUST: runs both programs five times in turn. Each prints lines of a name and a number of nanoseconds.
# Prints the least of each, and the ratio.
compare() {
    for _ in 1 2 3 4 5; do
        "$1" | sed 's/^/rattle /'
        "$2" | sed 's/^/rust /'
    done | awk '
        { key = $1 " " $2; if (!(key in least) || $3 < least[key]) least[key] = $3 }
        $1 == "rust" && !($2 in seen) { seen[$2] = 1; names[++count] = $2 }
        END {
            for (i = 1; i <= count; i++) {
                name = names[i]
                rattle = least["rattle " name]
                rust = least["rust " name]
                printf "%s: %d ns in Rattle, %d ns in Rust, ratio %.2f\n", name, rattle, rust, rattle / rust
            }
        }'
}
