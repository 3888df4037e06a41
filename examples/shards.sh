#!/bin/sh
# shards.sh COUNT QUERIES STREAM
#
# Shares out the queries of a file among COUNT runs of rpq, each a process of its own, which all read
# the same stream; joins what they write; and writes what one run of all queries writes. With one
# stream an entry has the same position in every run, so the blocks of an entry belong together.
# The status is that of the first run that fails, else 0. A file of N queries can have at most N
# parts.
set -eu
[ $# -eq 3 ] || { echo "usage: shards.sh COUNT QUERIES STREAM" >&2; exit 1; }
count="$1" queries="$2"
# A run that doesn't begin would open no pipe, and all others would wait for it.
rpq --check "$queries" > /dev/null
exec 3< "$3"
place="$(mktemp -d)"
trap 'rm -rf "$place"' EXIT

# The queries in COUNT parts, in order: the events of an entry are in the order of the queries.
awk -v count="$count" -v place="$place" '
    NF && $1 !~ /^#/ { line[total++] = $0 }
    END {
        if (count < 1 || count > total) {
            print "shards.sh: there are " total " queries for COUNT parts" > "/dev/stderr"
            exit 1
        }
        for (i = 0; i < total; i++) print line[i] > (place "/queries." int(i * count / total))
    }' "$queries"

# A run's output goes through `cat`, so that it begins before its output is asked for.
inputs=""
part=0
while [ "$part" -lt "$count" ]; do
    mkfifo "$place/in.$part" "$place/out.$part"
    { rpq "$place/queries.$part" "$place/in.$part" || echo $? > "$place/status.$part"; } |
        cat > "$place/out.$part" &
    inputs="$inputs $place/in.$part"
    part=$((part + 1))
done
# shellcheck disable=SC2086
tee $inputs <&3 > /dev/null &

# The line of an entry once, and then the events of each part.
awk -v count="$count" -v place="$place" '
    function next_line(part) { has[part] = (getline line[part] < (place "/out." part)) > 0 }
    BEGIN {
        for (part = 0; part < count; part++) next_line(part)
        while (has[0]) {
            entry = line[0]
            print entry
            for (part = 0; part < count; part++) {
                if (!has[part] || line[part] != entry) exit 1
                for (next_line(part); has[part] && line[part] !~ /^@/; next_line(part)) print line[part]
            }
        }
    }'

wait
for status in "$place"/status.*; do
    [ ! -e "$status" ] || exit "$(cat "$status")"
done
