#!/usr/bin/env bash
# serve.sh FOLDER READERS QUERIES
#
# Runs rpq as a service beside a feed. It makes named pipes in FOLDER, and holds both ends of each:
# so nobody waits for it, and who writes or asks may come and go.
#
#     feed                 takes the lines of the stream
#     asks.K, replies.K    belong to reader K, of so many READERS, 1 to 63
#
# The events go to standard output, and faulty lines of the feed at once to the file FOLDER/faults;
# those of the run before are in FOLDER/faults.before. The run begins with the window that the run
# before it left in FOLDER/window.
#
# TERM or INT ends it in order: once nobody else has the feed open, it ends, each reader gets the
# line `end`, and the window is saved. It ends so by itself where the disk of FOLDER/faults is full.
# Replies that nobody takes within five seconds are thrown away then. The status is that of rpq.
set -u
[ $# -eq 3 ] || { echo "usage: serve.sh FOLDER READERS QUERIES" >&2; exit 1; }
folder="$1" readers="$2" queries="$3"
mkdir -p "$folder" || exit 1
rm -f "$folder"/{feed,asks.*,replies.*,saved}
[ -f "$folder/window" ] || : > "$folder/window"
[ ! -e "$folder/faults" ] || mv "$folder/faults" "$folder/faults.before" || exit 1

# The pipes of the readers, and of one more that waits for the end of the feed.
words=() asks=() replies=()
for name in $(seq "$readers") end; do
    mkfifo "$folder/asks.$name" "$folder/replies.$name" || exit 1
    exec {ask}<> "$folder/asks.$name" {reply}<> "$folder/replies.$name"
    asks+=("$ask") replies+=("$reply")
    words+=(--reader "$folder/asks.$name" "$folder/replies.$name")
done
echo "wait 4611686018427387903" >&"$ask"
mkfifo "$folder/feed" || exit 1
exec {feed}<> "$folder/feed"

# rpq opens the pipes itself. If it had the other end of the feed too, the feed would never end. The
# signals are for this script.
(
    trap '' TERM INT
    for pipe in "$feed" "${asks[@]}" "${replies[@]}"; do exec {pipe}>&-; done
    exec rpq --endless --from "$folder/window" --save "$folder/saved" --faults "$folder/faults" \
        "${words[@]}" "$queries" "$folder/feed"
) &
run=$!

# Where the feed has ended, so do the readers.
(
    trap '' TERM INT
    exec {feed}>&-
    until read -r -t 1 _ <&"$reply"; do kill -0 "$run" || exit; done
    for pipe in "${asks[@]}"; do echo end >&"$pipe"; done
    for _ in 1 2 3 4 5; do kill -0 "$run" && sleep 1; done
    while kill -0 "$run"; do
        for pipe in "${replies[@]}"; do read -r -t 0.01 -N 65536 _ <&"$pipe"; done
    done
) 2> /dev/null &

# A signal ends the first wait alone.
trap 'trap "" TERM INT; exec {feed}>&-' TERM INT
wait "$run"
wait "$run"
status=$?
rm -f "$folder"/{feed,asks.*,replies.*}
case $status in
    0 | 9) mv "$folder/saved" "$folder/window" ;;
esac
exit "$status"
