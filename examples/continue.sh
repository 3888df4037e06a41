#!/bin/sh
# continue.sh LINES QUERIES LOG STATE [SECONDS]
#
# Follows a growing log of tuples through any number of runs of rpq. Each run takes at most LINES
# new lines of LOG, begins with the window that the run before it saved, and saves its own. Without
# SECONDS it ends where LOG has no more whole lines; with it, it looks again after so long.
#
# The directory STATE has the last saved window, and in two files for each run its events and the
# faulty lines that it passed over, with their numbers in LOG. `cat STATE/events.*` gives what one
# run over all of LOG writes, and `cat STATE/faults.*` all faulty lines. These files are written
# under other names first, the window last, so wherever this is stopped it goes on from there when
# it is started again.
#
# Where LOG is renamed to LOG.1 or any other name that begins with `LOG.`, and another LOG is begun,
# the rest of the old one is taken first. Where LOG has fewer lines than were taken of it, it was
# cut, and this ends with status 1; so it does where an old one is gone before its rest was taken.
set -eu
export LC_ALL=C
usage() {
    echo "usage: continue.sh LINES QUERIES LOG STATE [SECONDS], with LINES at least 1" >&2
    exit 1
}
stop() {
    echo "continue.sh: $1: begin another STATE" >&2
    exit 1
}
[ $# -eq 4 ] || [ $# -eq 5 ] || usage
lines="$1" queries="$2" log="$3" state="$4" seconds="${5:-}"
[ "$lines" -ge 1 ] 2> /dev/null || usage
[ -r "$log" ] || { echo "continue.sh: $log can't be read" >&2; exit 1; }
mkdir -p "$state"

# the number that the system has for a file, whatever its name
number_of() { stat -L -c %i "$1" 2> /dev/null; }
# the name that the file of this number has now
name_of() {
    for name in "$log" "$log".*; do
        [ "$(number_of "$name")" = "$1" ] && echo "$name" && return
    done
    return 1
}
# the file that was begun behind this one, once it has a line
file_behind() {
    find -L "$log" "$log".* -prune -newer "$1" -type f -exec ls -tr {} + 2> /dev/null |
        while IFS= read -r name; do
            [ "$(wc -l < "$name")" -eq 0 ] || { echo "$name"; break; }
        done
}

# A saved window is a stream, so comments can say how many lines of which file came before its end,
# and how many tuples they and all before them were.
[ -f "$state/window" ] ||
    printf '# taken 0\n# run 0 tuples 0 file %s\n' "$(number_of "$log")" > "$state/window"
taken="$(sed -n '1s/^# taken //p' "$state/window")"
# shellcheck disable=SC2046
set -- $(sed -n '2s/^# run \(.*\) tuples \(.*\) file \(.*\)/\1 \2 \3/p' "$state/window")
[ $# -eq 3 ] || stop "$state/window isn't of this script"
run="$1" tuples="$2" number="$3"

while :; do
    file="$(name_of "$number")" || stop "the file that was $log is gone"
    # Looked for first: who has begun another file writes no more into this one.
    next="$(file_behind "$file")"
    exec 3< "$file"
    # The name may be another file's by now.
    [ "$(number_of /dev/fd/3)" = "$number" ] || continue
    tail -n "+$((taken + 1))" /dev/fd/3 | head -n "$lines" > "$state/next"
    # A last line without its end is still being written.
    new="$(wc -l < "$state/next")"
    if [ "$new" -eq 0 ]; then
        [ "$(wc -l < /dev/fd/3)" -ge "$taken" ] ||
            stop "$file has fewer lines than the $taken taken"
        if [ -n "$next" ]; then
            number="$(number_of "$next")" taken=0
        elif [ -n "$seconds" ]; then
            sleep "$seconds"
        else
            break
        fi
        continue
    fi
    head -n "$new" "$state/next" > "$state/batch"

    # What comes before the lines of the batch is the window, with its two comments.
    saved="$(($(wc -l < "$state/window") - 2))"
    status=0
    rpq --endless --from "$state/window" --save "$state/saved" --faults "$state/passed" \
        "$queries" "$state/batch" > "$state/written" 2> "$state/errors" || status=$?
    cat "$state/errors" >&2
    [ "$status" -eq 0 ] || exit "$status"

    # The blocks of the saved tuples were written by the runs before. The others get their positions
    # in what one run writes, and the faulty lines their numbers in LOG.
    awk -v saved="$saved" -v before="$tuples" '
        /^@/ { at = substr($1, 2) - saved; if (at > 0) sub(/^@[0-9]+/, "@" (before + at)) }
        at > 0' "$state/written" > "$state/events"
    awk -v front="$((saved + 2))" -v taken="$taken" '
        { at = $2 - front; if (at <= 0) exit 1; sub(/^line [0-9]+/, "line " (taken + at)) } 1
        ' "$state/passed" > "$state/faults" || stop "$state/window has a faulty line"
    run="$((run + 1))" taken="$((taken + new))"
    at="$(printf '%09d' "$run")"
    [ ! -s "$state/faults" ] ||
        echo "continue.sh: $file has faulty lines, which are in $state/faults.$at" >&2
    tuples="$((tuples - saved + $(grep -c '^@' "$state/written" || true)))"
    for kind in events faults; do mv "$state/$kind" "$state/$kind.$at"; done
    {
        printf '# taken %s\n# run %s tuples %s file %s\n' "$taken" "$run" "$tuples" "$number"
        cat "$state/saved"
    } > "$state/events"
    mv "$state/events" "$state/window"
done
