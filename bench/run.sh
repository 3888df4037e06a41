#!/usr/bin/env bash
# Measures rpq, outside the gate:
#   bench/run.sh [--help]             this text
#   bench/run.sh [--fast] --times ..  times on streams of bench/workloads.py, as a table
#   bench/run.sh [--fast] --FORM ..   a form of bench/measure.py, which says what they are: --beside
#                                     OTHER, --attacks, --states, --hostile, --sqlite, --workers,
#                                     --memory
#   bench/run.sh [--fast] --fronts    fronts of entries, by the program bench/fronts.rattle
#   bench/run.sh [--fast] --live ..   several streams and readers, by bench/live.py, which says what
#                                     its words are: --idle, --delay, --before OTHER
#   bench/run.sh [--fast] --joins ..  what joins add to a run, by bench/joins.py, which says what
#                                     its words are: --sizes, --changes, --runs, --instructions
#   bench/run.sh [--fast] --refused   each allocation refused in turn, by tools/refused-allocations.py:
#                                     rpq, the embedding example and bench/rebuilds.rattle
#   bench/run.sh [--fast] --report OTHER FOLDER ..
#                                     every table of docs/performance.md, by bench/report.py
#   bench/run.sh [--fast] NAME ..     the program NAME.rattle with these words: edge_store, fronts,
#                                     rebuilds
# Words of measure.py can follow a form, as --kinds uniform,so --tuples 10000.
#
# The programs are proved and built by `rt run`, or with --fast built by tools/fast-build.sh, which
# is faster by far and proves nothing. A program NAME.rattle is built on a copy of the crates, as a
# crate that stands on those of its line `//! needs: ..`. Its name doesn't end in .rt, since the
# gate takes no such files outside of crates.
set -eu
top="$(cd "$(dirname "$0")/.." && pwd)"
command -v rt >/dev/null 2>&1 || PATH="$PATH:/opt/rattle/bin"
is_fast=no
if [ "${1:-}" = --fast ]; then
    is_fast=yes
    shift
fi
case "${1:-}" in
    "" | -h | --help)
        sed -n '2,/^set -eu$/{/^set -eu$/d;s/^# \{0,1\}//;p}' "$0"
        [ $# -ne 0 ]
        exit
        ;;
esac
place="$(mktemp -d)"
trap 'rm -rf "$place"' EXIT

# copies the crates, and adds the one of the program with this name
copy_with() {
    cp -a "$top/crates" "$top/crates.txt" "$top/HANDLES" "$top/tools" "$place/"
    mkdir -p "$place/crates/${1}_bench/src"
    cp "$top/bench/$1.rattle" "$place/crates/${1}_bench/src/main.rt"
    echo "${1}_bench: $(sed -n 's|^//! needs: ||p' "$top/bench/$1.rattle")" >> "$place/crates.txt"
}

# builds the program of a crate below a folder, and leaves it at a path; it is run on these words
build() {
    local folder="$1" crate="$2" out="$3"
    shift 3
    if [ "$is_fast" = yes ]; then
        "$folder/tools/fast-build.sh" "$out" "$crate"
    else
        (cd "$folder/crates/$crate" && rt run -- "$@" > /dev/null)
        cp "$folder/crates/$crate/out/$crate" "$out"
    fi
}

queries="$top/crates/rpq/data/queries.txt"
case "$1" in
    --*)
        build "$top" rpq "$place/rpq" "$queries" /dev/null
        if [ "$1" = --times ]; then
            shift
        fi
        if [ "${1:-}" = --fronts ]; then
            shift
            copy_with fronts
            build "$place" fronts_bench "$place/fronts" "$queries" /dev/null 1 1
            set -- --fronts "$place/fronts" "$@"
        fi
        if [ "${1:-}" = --refused ]; then
            shift
            build "$top" first_alert "$place/first_alert" "$queries" /dev/null
            copy_with rebuilds
            build "$place" rebuilds_bench "$place/rebuilds" "$queries" /dev/null
            "$top/tools/refused-allocations.py" "$place/rpq" --embedding "$place/first_alert" \
                --engine "$place/rebuilds" "$@"
        elif [ "${1:-}" = --joins ]; then
            shift
            python3 "$top/bench/joins.py" "$place/rpq" "$@"
        elif [ "${1:-}" = --report ]; then
            shift
            python3 "$top/bench/report.py" "$place/rpq" "$@"
        elif [ "${1:-}" = --live ]; then
            shift
            python3 "$top/bench/live.py" "$place/rpq" "$@"
        else
            python3 "$top/bench/measure.py" "$place/rpq" "$@"
        fi
        ;;
    *)
        name="$1"
        shift
        if [ ! -e "$top/bench/$name.rattle" ]; then
            echo "bench/run.sh: no program bench/$name.rattle; bench/run.sh --help has the words" >&2
            exit 1
        fi
        copy_with "$name"
        # edge_store takes no words, and passes these over
        build "$place" "${name}_bench" "$place/$name" "$queries" /dev/null 1 1
        "$place/$name" "$@"
        ;;
esac
