# shellcheck shell=bash
# For benches of libraries, which source it: makes a program over copies of crates, in a folder of its own,
# and proves and builds it as any other.
top=$(cd "$(dirname "${BASH_SOURCE[0]}")/.." && pwd)
work=$(mktemp -d)
trap 'rm -rf "$work"' EXIT
measure=$work/crates/measure

# Copies these crates, with what was proved of them: copy_crates CRATE..
copy_crates() {
    local crate part
    mkdir -p "$measure/src"
    cp "$top/HANDLES" "$work"
    for crate in "$@"; do
        mkdir "$work/crates/$crate"
        for part in src specs proofs out; do
            if [ -d "$top/crates/$crate/$part" ]; then
                cp -r "$top/crates/$crate/$part" "$work/crates/$crate"
            fi
        done
        grep "^$crate:" "$top/crates.txt" >> "$work/crates.txt"
    done
}

# What makes parts of modules is a library of tests.
copy_parts() {
    mkdir "$measure/specs" "$measure/proofs"
    cp "$top/crates/tests_linked/src/parts.rt" "$measure/src/parts.rt"
    cp -r "$top/crates/tests_linked/proofs/." "$measure/proofs"
    find "$measure/proofs" -name '*.antt' -exec sed -i 's/Rattle.tests_linked./Rattle.measure./' {} +
    : > "$measure/specs/Lib.antt"
}

# Builds programs/NAME.rt.txt as out/measure of the folder that is the current one then: build NAME CRATE..,
# the crates that it names.
build() {
    local name=$1
    shift
    cp "$top/bench/programs/$name.rt.txt" "$measure/src/main.rt"
    echo "measure: $*" >> "$work/crates.txt"
    cd "$measure" || exit
    rt run > "$work/log" 2>&1 || { grep -E 'error|no proof' "$work/log"; exit 1; }
}

# Seconds of processor time, in user code and in the system, of so many runs together: processor RUNS WORD..
processor() {
    local runs=$1 TIMEFORMAT='%U %S' run
    shift
    { time for ((run = 0; run < runs; run++)); do out/measure "$@" > "$work/printed"; done; } 2>&1
}
