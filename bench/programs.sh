# What bench/listing and bench/comparison share: sourced with `bench` as their name and `records` as the length of a long log. A case is a
# folder in which a program is run, with the file `input` on standard input.
cd "$(dirname "$0")/.."
work=$PWD/target/bench
size=260
trap 'rm -rf "$work"/cases "$work"/{hundred,text}' EXIT

fail() {
    echo "$bench: $1" >&2
    exit 1
}
command -v valgrind >/dev/null || fail 'valgrind is missing'

# both PROGRAM PACKAGE: `proved` and `second` are the paths of the program and of the second implementation's
both() {
    cargo build --quiet --release --manifest-path host/Cargo.toml --package "$2"
    proved=$PWD/target/bin/$1
    second=$PWD/host/target/release/$2
    [ -x "$proved" ] || fail "$proved is missing: ./raydulcimer list and ./raydulcimer compare build it"
}

# case_of NAME: makes its folder, with nothing on standard input
case_of() {
    mkdir -p "$work/cases/$1"
    : >"$work/cases/$1/input"
}

# record LOG NUMBER: one record of a log
record() { tail -c +$(($2 * size + 1)) "$1" | head -c "$size"; }

# samples: their whole records
samples() { for log in samples/*.log; do head -c $(($(stat -c %s "$log") / size * size)) "$log"; done; }

# again RECORDS: the records on standard input, again and again, so many
again() {
    cat >"$work/text"
    for _ in {1..100}; do cat "$work/text"; done >"$work/hundred"
    while cat "$work/hundred"; do :; done 2>/dev/null | head -c $(($1 * size)) || :
}

# run PROGRAM CASE
run() { (cd "$work/cases/$2" && exec "$1" <input); }

# instructions PROGRAM CASE
instructions() {
    (cd "$work/cases/$2" && valgrind --tool=callgrind --callgrind-out-file=/dev/null "$1" <input 2>&1 >/dev/null) |
        sed -n 's/.*Collected : //p'
}

# per_record PROGRAM CASE RECORDS: without what the program takes in the case of empty logs
per_record() { echo $((($(instructions "$1" "$2") - $(instructions "$1" empty)) / $3)); }

# best PROGRAM CASE: milliseconds, with the output to a file, the best of five runs
best() {
    for _ in 1 2 3 4 5; do
        start=$(date +%s%N)
        run "$1" "$2" >"$work/text"
        echo $((($(date +%s%N) - start) / 1000000))
    done | sort -n | head -n 1
}

# memory LINE PROGRAM CASE: the address space in KiB, in steps of 64, with which it comes to its last line, which begins so. The
# stack is always at the same place.
memory() {
    for ((kib = 1024; kib < 65536; kib += 64)); do
        last=$( (cd "$work/cases/$3" && setarch -R bash -c "ulimit -v $kib && exec '$2' <input") 2>/dev/null | tail -n 1) || true
        [[ $last != "$1"* ]] || break
    done
    echo $kib
}

row() { printf '%-34s %10s %10s %6s\n' "$@"; }
# measured WHAT PROVED SECOND
measured() { row "$1" "$2" "$3" "$(awk "BEGIN { printf \"%.2f\", $2 / ($3 ? $3 : 1) }")"; }

# same_output CASE: both programs print the same
same_output() { cmp <(run "$proved" "$1") <(run "$second" "$1") || fail "$1: the programs print different texts"; }

# same_memory LINE SHORT LONG: the proved program needs no more for a long log than for a short one
same_memory() {
    few=$(memory "$1" "$proved" "$2") many=$(memory "$1" "$proved" "$3")
    row 'KiB of address space' "$many" '' ''
    [ "$many" -lt 65536 ] || fail "$records records take more than 64 MiB"
    [ "$few" -eq "$many" ] || fail "a short log takes $few KiB, and one of $records records $many"
}
