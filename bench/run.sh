#!/bin/sh
# Builds the archive of the C interface and the benchmark over it, and measures reduce, lift and pair next to LEMON,
# solve on lists of many groups next to LEMON, and tidy next to std::sort and std::unique.
#
#     sh bench/run.sh [SEED]                  every family of shapes, lists of many groups, and tidy; tables and chart
#                                             in target/bench
#     sh bench/run.sh --record [SEED]         the same, and puts all into docs/PERFORMANCE.md and docs/performance.svg
#     sh bench/run.sh --record-tidy [SEED]    tidy alone, and puts its table into docs/PERFORMANCE.md
#     sh bench/run.sh --lists FILE...         these store lists; prints what the calls make of them, and the times
#
# LEMON takes part where liblemon-dev is installed. The exit status is 1 where a total is not LEMON's, or where a store
# list of tidy is not that of std::sort and std::unique.
set -eu
first=$PWD
cd "$(dirname "$0")/.."
out=target/bench
mkdir -p "$out"

# The flags with which LEMON compiles here, or none.
lemon_flags() {
    flags="-DHAVE_LEMON -DLEMON_ONLY_TEMPLATES"
    if echo '#include <lemon/matching.h>' | g++ -std=c++17 $flags -x c++ -fsyntax-only - 2> "$out/lemon.log"; then
        echo "$flags"
    fi
}

# The archive, then the benchmark.
build() {
    (cd crates/cells_c && rt lib) > "$out/build.log" 2>&1 || { cat "$out/build.log" >&2; exit 1; }
    flags=$(lemon_flags)
    if [ -n "$flags" ]; then
        echo "LEMON is installed: its times stand beside ours."
    else
        echo "LEMON (liblemon-dev) is not installed: ours only."
    fi
    # The archive stands right behind place.s, which fixes the place of its code.
    g++ -std=c++17 -O3 -DNDEBUG $flags -Iinclude -o "$out/bench" bench/place.s \
        -Wl,--whole-archive crates/cells_c/out/libcells_c.a -Wl,--no-whole-archive bench/main.cpp
}

# The day, the machine, how busy it was before the run, and the compilers.
load=$(cut -d ' ' -f 1 /proc/loadavg)
machine() {
    model=$(sed -n 's/^model name[[:space:]]*: //p' /proc/cpuinfo | head -n 1)
    echo "Measured on $(date +%Y-%m-%d) on $(nproc) cores (${model:-unknown processor}), which had a load of $load before"
    echo "the run (0 is a quiet machine); compiled with $(g++ --version | head -n 1);"
    echo "the archive by $(rt version | cut -d ' ' -f 1)."
}

# Puts what was measured between the two marks of this name in docs/PERFORMANCE.md.
record() {
    awk -v mark="$1" -v part="$out/$1.md" '
        $0 == "<!-- " mark ": end -->" { inside = 0 }
        !inside { print }
        $0 == "<!-- " mark ": start -->" {
            inside = 1; print ""; while ((getline line < part) > 0) print line; print ""
        }
    ' docs/PERFORMANCE.md > "$out/PERFORMANCE.md"
    cp "$out/PERFORMANCE.md" docs/PERFORMANCE.md
}

# Ends the run where docs/PERFORMANCE.md has no marks of this name.
marked() {
    for end in start end; do
        grep -q "^<!-- $1: $end -->\$" docs/PERFORMANCE.md || fail "docs/PERFORMANCE.md has no mark '$1: $end'"
    done
}

# Every family, with this seed.
measure() {
    "$out/bench" families "$out" "$1"
    { machine; echo; cat "$out/table.md"; } > "$out/measured.md"
    cat "$out/measured.md"
    echo "The chart is $out/chart.svg."
}

# Tidy, with this seed.
measure_tidy() {
    "$out/bench" tidy "$out" "$1"
    { machine; echo; cat "$out/tidy.md"; } > "$out/measured-tidy.md"
    cat "$out/measured-tidy.md"
}

# Ends the run with a message.
fail() {
    echo "bench/run.sh: $1" >&2
    exit 1
}

# The seed that is given, or 1.
seed() {
    case "${1:-1}" in
    *[!0-9]*) fail "'$1' is no seed; the first lines of bench/run.sh say what may be given" ;;
    *) echo "${1:-1}" ;;
    esac
}

case "${1:-}" in
--lists)
    shift
    [ $# -gt 0 ] || fail "--lists takes the names of store lists"
    build
    root=$PWD
    cd "$first"
    exec "$root/$out/bench" lists "$@"
    ;;
--record)
    chosen=$(seed "${2:-}")
    marked measured
    marked measured-tidy
    build
    measure "$chosen"
    measure_tidy "$chosen"
    record measured
    cp "$out/chart.svg" docs/performance.svg
    record measured-tidy
    ;;
--record-tidy)
    chosen=$(seed "${2:-}")
    marked measured-tidy
    build
    measure_tidy "$chosen"
    record measured-tidy
    ;;
*)
    chosen=$(seed "${1:-}")
    build
    measure "$chosen"
    measure_tidy "$chosen"
    ;;
esac
