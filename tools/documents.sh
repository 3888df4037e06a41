#!/usr/bin/env bash
# tools/documents.sh [PROGRAM]
#
# Runs what the documents say, with PROGRAM as `rpq`, and compares what comes out. Where no program
# is given, it is the proved one that `.ci/run`, or `rt run` in crates/rpq, left in crates/rpq/out.
#
# - Each command of README.md, docs/examples.md, docs/your-data.md, docs/formats.md, docs/scale.md
#   and docs/service.md, which is an indented line behind `$ `. What follows it, up to a blank line
#   or the next command, is what it writes; a line `...` there is any further lines.
# - The example of the README's first screen, and the files *-events.txt of examples/, with their
#   joins file where there is one, else with `--two-way` and, where the queries have no `^`, without
#   it.
# - Whether docs/architecture.md has each crate, and docs/proved.md each law.
# - What `main` makes of words that aren't UTF-8, of too many words, of `--two-way` beside readers
#   or a saved window, of options with three streams and readers, of files that are too long, and of
#   a closed output: no contract says it.
# - That what packaging/ installs runs, and that its man page and completion have each option.
# - What the scripts say where they are used in a wrong way (tools/wrong-uses.sh): none ends with 0,
#   or waits for ever.
# - That runs with `--faults` write what runs over the good lines write, and each faulty line at once
#   (tools/faulty-lines.sh).
# - That a file which a run reads, or which is one of its outputs, isn't opened to write by any of
#   its names, that a name is taken as it is, that a file that is written is emptied first, what
#   stands on the output where a signal ends the program, and that ten runs, each going on with the
#   window of the one before, write what one run writes.
# - That a run without end passes 2,000,000 tuples, and writes and saves what one that keeps all
#   does, with each option.
# - That a reader beside a run whose replies nobody takes holds up the end alone, that one whose
#   client is gone ends alone, that readers who ask nothing take no processor time, and which of
#   their files are refused.
# - That 64 streams are read beside all options, files of faults and 64 readers, that a run over 70,001 vertices has
#   each answer, also where one tuple brings 70,001 of them, that a live run takes no processor time
#   while no line comes, that each of its sessions is woken, and that a run goes on when memory runs
#   out for the first time. This last check wants a C compiler.
#
# The commands of a document run one after another in a copy of examples/, those of the README in
# the folder above it. Small stand-ins are there for the packages of the machine, a collector, the
# clock, `rt`, and `socat` if there is none. The last line is `N passed, M failed`; the status is 0
# where none failed.
set -u
export LC_ALL=C
case "$#${1:-}" in
    0 | 1[!-]*) ;;
    *) echo "usage: tools/documents.sh [PROGRAM]" >&2; exit 1 ;;
esac
top="$(cd "$(dirname "$0")/.." && pwd)"
program="$(realpath -m "${1:-$top/crates/rpq/out/rpq}")"
[ -x "$program" ] || { echo "documents: no program $program" >&2; exit 1; }
place="$(mktemp -d)" || exit 1
trap 'rm -rf "$place"' EXIT
exec < /dev/null
passed=0
failed=0

# says whether a check passed, by the status before
count() {
    if [ "$1" -eq 0 ]; then
        passed=$((passed + 1))
    else
        failed=$((failed + 1))
        echo "FAILED: $2"
    fi
}

# What stands for the world: the program, and commands that the documents name.
mkdir "$place/bin"
ln -s "$program" "$place/bin/rpq"
ln -s "$top/scripts/to-stream.py" "$place/bin/rpq-to-stream"
ln -s "$top/scripts/rpq-json.py" "$place/bin/rpq-json"
ln -s "$top/scripts/alerts.py" "$place/bin/rpq-alerts"
ln -s "$top/scripts/labels.py" "$place/bin/rpq-labels"
ln -s "$top/scripts/ask.py" "$place/bin/rpq-ask"
cat > "$place/bin/rt" <<'END'
#!/bin/sh
case "$1 $2" in "try --" | "run --") shift 2; exec rpq "$@" ;; *) exit 1 ;; esac
END
cat > "$place/bin/collector" <<'END'
#!/bin/sh
exec cat live.txt
END
cat > "$place/bin/date" <<'END'
#!/bin/sh
echo 1764205500
END
# The first sleep of the loop lasts until the guard has passed all lines on, and the second ends it.
cat > "$place/bin/perl" <<END
#!/bin/sh
"$(command -v perl)" "\$@" && : > guarded
END
cat > "$place/bin/sleep" <<'END'
#!/bin/sh
[ "$1" = 10 ] || exec /bin/sleep "$@"
[ -e slept ] && exit 1
: > slept
until [ -e guarded ]; do /bin/sleep 0.1; done
END
# A socket whose clients have a command each, or a client of it.
command -v socat > /dev/null || cat > "$place/bin/socat" <<'END'
#!/usr/bin/env python3
import os, socket, subprocess, sys
first, second = sys.argv[3:5] if sys.argv[1] == "-t" else sys.argv[1:3]
end = socket.socket(socket.AF_UNIX)
if first == "-":
    end.connect(second.split(":", 1)[1])
    end.sendall(sys.stdin.buffer.read())
    end.shutdown(socket.SHUT_WR)
    sys.stdout.buffer.write(end.makefile("rb").read())
    sys.exit()
end.bind(first.split(":", 1)[1].split(",")[0])
end.listen()
while True:
    client, _ = end.accept()
    subprocess.Popen(second.split(":", 1)[1].split(" "), stdin=client, stdout=client)
    client.close()
END
chmod +x "$place"/bin/*
PATH="$place/bin:$PATH"

# whether a text is as wanted, where a line `...` stands for any further lines
is_as_wanted() {
    if [ "$(tail -n 1 "$2")" = "..." ]; then
        local lines
        lines=$(($(wc -l < "$2") - 1))
        cmp -s <(head -n "$lines" "$1") <(head -n "$lines" "$2")
    else
        cmp -s "$1" "$2"
    fi
}

# runs one command of a document, and compares what it writes with what stands below it
run_command() {
    local document="$1" work="$2" number="$3" command="$4"
    (cd "$place/$work" && timeout 30 bash -c "$command") < /dev/null > "$place/actual" 2>&1
    local status=$?
    if [ $status -ne 0 ]; then
        count 1 "$document line $number: status $status"
        head -n 20 "$place/actual"
    elif is_as_wanted "$place/actual" "$place/wanted"; then
        count 0
    else
        count 1 "$document line $number: it writes another text"
        diff "$place/wanted" "$place/actual" | head -n 20
    fi
}

# runs the commands of a document
run_document() {
    local document="$1" work="$2" number=0 first=0 command="" is_open=no line
    rm -rf "$place/top"
    mkdir -p "$place/top/crates/rpq"
    cp -r "$top/examples" "$place/top/"
    cp -r "$top/crates/rpq/data" "$place/top/crates/rpq/"
    : > "$place/wanted"
    while IFS= read -r line || [ -n "$line" ]; do
        number=$((number + 1))
        if [ "$is_open" = yes ]; then
            command="$command"$'\n'"${line#    }"
        elif [ "${line#    }" = "$line" ] || [ "${line#    \$ }" != "$line" ]; then
            [ -z "$command" ] || run_command "$document" "$work" "$first" "$command"
            command=""
            : > "$place/wanted"
            [ "${line#    \$ }" = "$line" ] && continue
            command="${line#    \$ }"
            first=$number
        else
            [ -z "$command" ] || printf '%s\n' "${line#    }" >> "$place/wanted"
            continue
        fi
        # A command that isn't whole goes on in the next line.
        is_open=no
        if [ "${command%\\}" != "$command" ] || ! bash -n -c "$command" 2> /dev/null; then
            is_open=yes
        fi
    done < <(sed 's|/var/lib/dpkg/status|dpkg-status|' "$top/$document"; echo)
}

run_document README.md top
for document in docs/examples.md docs/your-data.md docs/formats.md docs/scale.md \
    docs/service.md; do
    run_document "$document" top/examples
done

# The first screen has the stream on the left, what it gives on the right, and the command.
cd "$top" || exit 1
screen="$(sed '/^## /q' README.md)"
cmp -s crates/rpq/data/stream.txt \
    <(grep -oE '^    [0-9]+( [a-z:0-9]+){3}  ' <<< "$screen" | sed 's/^ *//; s/ *$//')
count $? "README.md: the stream of the first screen isn't crates/rpq/data/stream.txt"
cmp -s crates/rpq/data/queries.txt <(grep -E '^    query' <<< "$screen" | sed 's/^ *//')
count $? "README.md: the query of the first screen isn't crates/rpq/data/queries.txt"
cmp -s <(bash -c "$(grep '^    cd ' <<< "$screen")") \
    <(grep -oE '  (@[0-9]+ 1 [0-9]+ .*|[+-] through .*)$' <<< "$screen" | sed 's/^ *//')
count $? "README.md: the command of the first screen gives another output"

cd "$top/examples" || exit 1
for events in *-events.txt; do
    kind="${events%-events.txt}"
    if [ -e "$kind-joins.txt" ]; then
        cmp -s "$events" \
            <(rpq --joins "$kind-joins.txt" "$kind-queries.txt" "$kind-stream.txt" 2>&1)
        count $? "examples/$events: rpq --joins writes another text"
        continue
    fi
    cmp -s "$events" <(rpq --two-way "$kind-queries.txt" "$kind-stream.txt" 2>&1)
    count $? "examples/$events: rpq --two-way writes another text"
    grep -q '\^' "$kind-queries.txt" && continue
    cmp -s "$events" <(rpq "$kind-queries.txt" "$kind-stream.txt" 2>&1)
    count $? "examples/$events: rpq writes another text"
done

# the words that a page doesn't have, each between these two texts
missing_in() {
    local page="$1" before="$2" behind="$3" word
    while read -r word; do
        grep -qF -- "$before$word$behind" "$page" || echo "$word"
    done
}

cd "$top" || exit 1
missing="$(sed -n 's/^\([a-z_0-9]*\):.*/\1/p' crates.txt |
    missing_in docs/architecture.md '| `' '` |' | tr '\n' ' ')"
[ -z "$missing" ]
count $? "docs/architecture.md: it doesn't say what is in $missing"
missing="$(cat crates/*/src/*laws.rt | sed -n 's/^pub fn \([a-z_0-9]*\).*/\1/p' |
    missing_in docs/proved.md '`' '`' | tr '\n' ' ')"
[ -z "$missing" ]
count $? "docs/proved.md: it doesn't name the laws $missing"

cd "$top/examples" || exit 1
# whether the program, with these words and outputs, ends with a status and says a line
ends_with() {
    local status="$1" line="$2" name="$3"
    shift 3
    "$@" 2> "$place/errors"
    [ $? -eq "$status" ] && grep -qxF -- "$line" "$place/errors"
    count $? "$name: no status $status, or no line \`$line\`"
}

queries=ring-queries.txt
stream=ring-stream.txt
to_closed() { rpq "$@" >&-; }
to_full() { rpq "$@" > /dev/full; }
from_closed() { rpq "$@" <&-; }
# The reader of the pipe is gone once a write fails.
to_nobody() {
    (
        trap '' PIPE
        while printf '\n' 2> /dev/null; do /bin/sleep 0.1; done
        trap - PIPE
        rpq "$@"
        echo $? > "$place/status"
    ) | true
    return "$(cat "$place/status")"
}
mapfile -t many < <(for number in $(seq 65); do echo "$stream"; done)
mapfile -t very_many < <(seq 20000)
ends_with 1 "rpq: words" "no words" rpq
ends_with 1 "rpq: words" "a word that isn't UTF-8" rpq $'\xff' "$stream"
ends_with 1 "rpq: words" "a last word that isn't UTF-8" rpq "$queries" $'a\xc3'
ends_with 1 "rpq: words" "a further word that isn't UTF-8" rpq "$queries" "$stream" $'\xff'
ends_with 1 "rpq: words" "65 streams" rpq "$queries" "${many[@]}"
ends_with 1 "rpq: words" "20,000 words" rpq "$queries" "${very_many[@]}"
ends_with 1 "rpq: words" "an option behind the files" rpq "$queries" "$stream" --workers=65
ends_with 2 "rpq: queries line 2: unexpected byte 7" "a \`^\` without --two-way" \
    rpq device-queries.txt device-stream.txt
ends_with 1 "rpq: words" "readers with --two-way" \
    rpq --two-way --asks reach-asks.txt --replies "$place/unmade" reach-queries.txt "$stream"
ends_with 1 "rpq: words" "a window saved with --two-way" \
    rpq --two-way --save "$place/unmade" "$queries" "$stream"
ends_with 1 "rpq: words" "a saved window with --two-way" \
    rpq --two-way --from "$stream" "$queries" "$stream"
ends_with 1 "rpq: words" "a reader with --two-way" \
    rpq --two-way --reader reach-asks.txt "$place/unmade" "$queries" "$stream"
ends_with 1 "rpq: words" "a reader with --check" \
    rpq --check --reader reach-asks.txt "$place/unmade" "$queries"
mapfile -t readers < <(for number in $(seq 65); do printf '%s\n' --reader a "$place/unmade"; done)
ends_with 1 "rpq: words" "65 readers" rpq "${readers[@]}" "$queries" "$stream"
ends_with 1 "rpq: words" "a reader without replies" rpq "$queries" "$stream" --reader reach-asks.txt
ends_with 1 "rpq: words" "joins with --two-way" \
    rpq --two-way --joins firm-joins.txt firm-queries.txt "$stream"
ends_with 1 "rpq: words" "joins with --paths" \
    rpq --joins firm-joins.txt --save "$place/unmade" --paths firm-queries.txt "$stream"
[ ! -e "$place/unmade" ]
count $? "words with --two-way or --joins that are refused: a file was made"
ends_with 10 "rpq: joins line 2: unknown query" "joins over other queries" \
    rpq --joins firm-joins.txt --save "$place/unmade" "$queries" "$stream"
[ ! -e "$place/unmade" ]
count $? "a faulty joins file: a file was made"
# A file that is read whole has fewer than 2^24 bytes.
yes '# long' | head -c 16777216 > "$place/long"
ends_with 7 "rpq: queries: too long" "a queries file that is too long" rpq "$place/long" "$stream"
ends_with 7 "rpq: joins: too long" "a joins file that is too long" \
    rpq --joins "$place/long" "$queries" "$stream"
ends_with 7 "rpq: asks: too long" "an asks file that is too long" \
    rpq --asks "$place/long" --replies "$place/unmade" "$queries" "$stream"
truncate -s -1 "$place/long"
cmp -s <(rpq "$queries" "$stream") <(rpq --joins "$place/long" "$queries" "$stream")
count $? "a joins file of 2^24 - 1 bytes without a join: it changes the text"
ends_with 6 "rpq: write failed: events" "a closed output" to_closed "$queries" "$stream"
ends_with 6 "rpq: write failed: events" "a closed output of a check" to_closed --check "$queries"
ends_with 6 "rpq: write failed: events" "a full device" to_full "$queries" "$stream"
ends_with 6 "rpq: write failed: events" "a pipe that nobody reads" to_nobody "$queries" "$stream"
ends_with 5 "rpq: read failed: stream 1" "a closed input" from_closed "$queries" /dev/stdin
rpq "$queries" "$stream" > /dev/null 2>&-
count $? "closed errors: the status isn't 0"

# Options, three streams and readers: each stream's tuples stand there in their order.
three=(ring-stream.txt reach-stream.txt facts-stream.txt)
rpq --workers 2 --history=1000 --asks reach-asks.txt --replies "$place/replies" \
    reach-queries.txt "${three[@]}" > "$place/events"
count $? "three streams: the status isn't 0"
for number in 1 2 3; do
    cmp -s <(sed -n "s/^@[0-9]* $number //p" "$place/events") \
        <(rpq "$queries" "${three[number - 1]}" | sed -n 's/^@[0-9]* 1 //p')
    count $? "three streams: the tuples of stream $number aren't in their order"
done
grep -q '^session 2$' "$place/replies"
count $? "three streams: no second session in the replies"

# A file that the run reads isn't opened to write: the run is refused, and the file stays.
mkdir "$place/files"
cp "$queries" "$place/files/queries"
cp "$stream" "$place/files/stream"
printf 'session\nwait 2\n' > "$place/files/asks"
printf 'join ring flow ?x ?y flow ?y ?x\n' > "$place/files/joins"
cp -r "$place/files" "$place/kept"
cd "$place/files" || exit 1
for name in queries joins asks stream; do
    ends_with 6 "rpq: write failed: replies" "replies into the file $name" \
        rpq --joins joins --asks asks --replies "$name" queries stream
    cmp -s "$name" "$place/kept/$name"
    count $? "replies into the file $name: the file is another one"
done

printf '1 x a y\n' > window
cp window "$place/kept/window"
for name in queries joins stream; do
    ends_with 6 "rpq: write failed: save" "a window saved into the file $name" \
        rpq --joins joins --save "$name" --from window queries stream
    cmp -s "$name" "$place/kept/$name"
    count $? "a window saved into the file $name: the file is another one"
done
ends_with 1 "rpq: words" "a window saved into its own file" \
    rpq --save window --from window queries stream
cmp -s window "$place/kept/window"
count $? "a window saved into its own file: the file is another one"
ends_with 6 "rpq: write failed: save" "a window saved into the file of the replies" \
    rpq --asks asks --replies both --save both queries stream
saving() { rpq --save "$@" > /dev/null; }
ends_with 6 "rpq: write failed: save" "a window saved on a full device" \
    saving /dev/full queries stream
ends_with 5 "rpq: read failed: from" "no saved window" rpq --from nowhere queries stream
ends_with 5 "rpq: read failed: joins" "no joins file" rpq --joins nowhere queries stream

# So are the replies of a reader. A reader ends alone if a reply can't be written.
for name in queries joins asks stream live; do
    printf 'wait 2\n' > live
    ends_with 6 "rpq: write failed: reader 2" "a reader's replies into the file $name" \
        rpq --joins joins --asks asks --replies /dev/null --reader live replies \
        --reader live "$name" queries stream
    [ "$name" = live ] || cmp -s "$name" "$place/kept/$name"
    count $? "a reader's replies into the file $name: the file is another one"
done
ends_with 6 "rpq: write failed: reader 2" "the replies of two readers into one file" \
    rpq --reader live both --reader live ./both queries stream
rm -f unmade
ends_with 5 "rpq: read failed: reader 2" "no file of a reader's asks" \
    rpq --reader live unmade --reader nowhere unmade queries stream
[ ! -e unmade ]
count $? "no file of a reader's asks: a file was made"
answering() { rpq "$@" queries stream > events; }
ends_with 9 "rpq: write failed: reader 1" "a reader's replies on a full device" \
    answering --reader live /dev/full --reader live replies
cmp -s events <(rpq queries stream) && grep -q '^@[0-9]* wait 2$' replies
count $? "a reader's replies on a full device: other events, or other replies of another reader"
rm live

# So it is by another name of the file: a path, a link of either kind, and the system's own name of
# an open file.
all=(rpq --joins joins --asks asks --from window)
for name in queries joins asks stream window; do
    ln -s "$name" "link-to-$name"
    ln "$name" "second-$name"
    for other in "./$name" "$PWD/$name" "link-to-$name" "second-$name"; do
        ends_with 6 "rpq: write failed: replies" "replies into the file $name as $other" \
            "${all[@]}" --replies "$other" queries stream
        ends_with 6 "rpq: write failed: save" "a window saved into the file $name as $other" \
            "${all[@]}" --replies replies --save "$other" queries stream
    done
    cmp -s "$name" "$place/kept/$name"
    count $? "written by other names of $name: the file is another one"
done
from_stream() { rpq "$@" < stream; }
ends_with 6 "rpq: write failed: save" "a window saved into the file of the input" \
    from_stream --save stream queries /dev/stdin
cmp -s stream "$place/kept/stream"
count $? "a window saved into the file of the input: the file is another one"
ends_with 6 "rpq: write failed: save" "a window saved into the replies by another name" \
    rpq --asks asks --replies both --save ./both queries stream

# The files of the outputs stay, too: nothing is written on them but what is to be.
to_events() { rpq "$@" >> events; }
echo before > events
ln -s events link-to-events
for name in events link-to-events /dev/stdout /proc/self/fd/1; do
    ends_with 6 "rpq: write failed: replies" "replies into the events as $name" \
        to_events --asks asks --replies "$name" queries stream
    ends_with 6 "rpq: write failed: save" "a window saved into the events as $name" \
        to_events --save "$name" queries stream
done
cmp -s events <(echo before)
count $? "written by names of the events: they are others"
for name in "$place/errors" /dev/stderr /proc/self/fd/2; do
    ends_with 6 "rpq: write failed: save" "a window saved into the errors as $name" \
        rpq --save "$name" queries stream
    cmp -s "$place/errors" <(echo "rpq: write failed: save")
    count $? "a window saved into the errors as $name: they have other lines"
done
# Where the outputs are closed, a file that is opened gets the number of one.
from_and_to_closed() { rpq "$@" <&- >&-; }
ends_with 6 "rpq: write failed: save" "a window saved with all but the errors closed" \
    from_and_to_closed --save window queries stream
cmp -s window "$place/kept/window"
count $? "a window saved with all but the errors closed: the file is another one"

cp "$place"/kept/* . # so that what fails here fails nothing below

# Devices and pipes have nothing to lose, and are opened. A name is taken as it is, and a file that
# is written has nothing behind what is written.
rpq --asks asks --replies /dev/null --save /dev/stdout queries stream 2> "$place/errors" |
    cat > events
[ "${PIPESTATUS[0]}" -eq 0 ]
count $? "a window saved into the pipe of the events: the status isn't 0"
rpq --save ' saved ' queries stream > one
count $? "a window saved into a name with blanks: the status isn't 0"
cmp -s events <(cat one ' saved ')
count $? "a window saved into the pipe of the events: it is another text"
yes | head -n 10000 > saved
rpq --save saved queries ' saved ' > one
count $? "a stream of a name with blanks: the status isn't 0"
rpq --save fresh queries ' saved ' | cmp -s - one && cmp -s saved fresh
count $? "a window saved into a longer file: it is another text"

# Ten runs, each of which goes on with the window of the one before, write what one run writes.
mkdir "$place/continued"
cd "$place/continued" || exit 1
awk 'BEGIN {
    srand(7); split("a b c", labels, " ")
    for (line = 0; line < 100000; line++) {
        time += rand() < 0.4
        at = time - int(rand() * 3); if (at < 0) at = 0
        edge = "v" int(rand() * 3000) " " labels[1 + int(rand() * 3)] " v" int(rand() * 3000)
        kind = rand()
        if (kind < 0.05) print at
        else if (kind < 0.1) print at, edge, "-"
        else if (kind < 0.2) print at, edge, "until", at + int(rand() * 900)
        else print at, edge
    }
}' > log
printf 'query %s\n' 'p window 700 slide 50 arbitrary: a/b' 'r window 300 slide 40 simple: c+' > queries
rpq queries log > one
count $? "one run of 100,000 tuples: the status isn't 0"
sh "$top/examples/continue.sh" 10000 queries log state
count $? "continue.sh: the status isn't 0"
cmp -s one <(cat state/events.*)
count $? "continue.sh: ten runs write another text than one"

# All options that go together, and as many streams and readers as may be: the last one is read like
# the first one, and nothing is missing behind the streams.
mkdir "$place/many"
cd "$place/many" || exit 1
cp "$place"/files/queries .
printf 'session\nwait 640\ncount %s\n' "$(awk '/^query/ { print $2; exit }' queries)" > asks
names=() with_readers=() with_faults=()
printf 'wait 640\nclock\n' > live
for number in $(seq 64); do
    names+=("stream$number") with_readers+=(--reader live "replies$number")
    with_faults+=(--faults "faults$number")
    for line in $(seq 10); do echo "$line from$number transfer to$line"; done > "stream$number"
    echo "$number" transfer >> "stream$number"
done
rpq --workers 2 --history 640 --paths --asks asks --replies replies --save saved \
    "${with_readers[@]}" "${with_faults[@]}" queries "${names[@]}" > events
count $? "64 streams and all options: the status isn't 0"
for number in 1 33 64; do
    cmp -s <(sed -n "s/^@[0-9]* $number \(.*\) +/\1/p" events) <(head -n 10 "stream$number")
    count $? "64 streams and all options: the tuples of stream $number aren't there"
    cmp -s "replies$number" <(printf '@640 wait 640\n@640 clock 10\n')
    count $? "64 streams and all options: reader $number has other replies"
    [ "$(cat "faults$number")" = "line 11: fields 2: $number transfer" ]
    count $? "64 streams and all options: stream $number has other faults"
done
[ "$(sed -n 1p replies)" = "session 1" ] && grep -q '^@640 wait 640$' replies && [ -s saved ]
count $? "64 streams and all options: no reply at the end, or no saved window"

# A run without end: it passes the cap of other runs; rebuilt on the way, it writes what a run that
# keeps all writes, saves the same window, also where it began with one, and names drift; and with
# edges both ways, with paths and with joins it writes the same, too.
mkdir "$place/endless"
cd "$place/endless" || exit 1
printf 'query near window 2000 slide 100 arbitrary: a/b\n' > queries
printf 'query far window 5000 slide 1 arbitrary: (a|c)+\n' >> queries
echo 'join both near ?x ?y far ?x ?y' > joins
awk 'BEGIN {
    srand(7)
    for (line = 0; line < 200000; line++) {
        from = "n" int(line / 500) "x" int(rand() * 900)
        to = "n" int(line / 500) "x" int(rand() * 900)
        kind = rand()
        time = kind < 0.03 ? int(line - rand() * 4000) : line
        if (time < 0) time = 0
        label = substr("abc", 1 + int(rand() * 3), 1)
        if (kind > 0.99) print line
        else if (kind > 0.96) print line, last, "-"
        else if (kind > 0.9) print time, from, label, to, "until", line + 1 + int(rand() * 3000)
        else print time, from, label, to
        last = from " " label " " to
    }
}' > stream
# whether both runs, with these words, write the same
is_the_same_endless() {
    rpq --history 300000 "$@" queries stream | sha256sum > kept &&
        rpq --endless "$@" queries stream | sha256sum > forgotten && cmp -s kept forgotten
}
is_the_same_endless --save saved && mv saved saved_of_kept &&
    rpq --endless --save saved_of_endless queries stream > /dev/null &&
    cmp -s saved_of_kept saved_of_endless
count $? "without end: another text, or another saved window"
is_the_same_endless --from saved_of_kept
count $? "without end, behind a saved window: another text"
for words in --two-way --paths "--joins joins"; do
    # shellcheck disable=SC2086
    is_the_same_endless $words
    count $? "without end, with $words: another text"
done
awk 'BEGIN { for (line = 1; line <= 2100000; line++) print line % 7 ? line : line " x a y" }' |
    rpq --endless queries /dev/stdin | grep '^@' | tail -n 1 > last
[ "$(cat last)" = "@2100000 1 2100000 x a y +" ]
count $? "without end: 2,100,000 tuples aren't passed"
cd "$place" || exit 1
rm -rf "$place/endless"

# More vertices, trees and nodes of one tree than 16 bits count. The last tuple brings a pair of its
# source with each vertex of the chain behind it, all in one block.
mkdir "$place/large"
cd "$place/large" || exit 1
awk 'BEGIN {
    for (line = 0; line < 70000; line++) print line, "v" line, "a", "v" line + 1
    print 70000, "r b v0"
}' > chain
echo 'query behind window 1000000 slide 1 arbitrary: b/a*' > queries
rpq queries chain | grep '^[+-]' > pairs
[ "${PIPESTATUS[0]}" -eq 0 ]
count $? "a chain of 70,001 vertices: the status isn't 0"
cmp -s <(sort pairs) <(seq 0 70000 | sed 's/.*/+ behind r v&/' | sort)
count $? "a chain of 70,001 vertices: it is another set of pairs"
echo 'query edge window 1000000 slide 1 arbitrary: a' > queries
rpq queries chain | grep '^[+-]' | cmp -s - <(awk '$3 == "a" { print "+ edge", $2, $4 }' chain)
count $? "a chain of 70,001 vertices: its edges aren't the pairs"

# A live run of nine readers: one waits for its tenth tuple and is answered long before the last one
# is there, though the others wait for a later one. While no line comes, no thread takes processor
# time, also behind so many tuples: in one second of twenty the run takes a twentieth at most. And
# the end of the stream wakes every reader.
printf 'session\nwait 10\n' > asks
for reader in $(seq 8); do printf 'session\nwait 1000000\n'; done >> asks
has_written() {
    local turn
    for turn in $(seq 600); do
        [ "$(tail -n 1 events)" = "$1" ] && return 0
        /bin/sleep 0.1
    done
    return 1
}
taken() { awk '{ sub(/.*\) /, ""); print $12 + $13 }' "/proc/$1/stat"; }
is_idle() {
    local before turn
    for turn in $(seq 20); do
        before=$(taken "$1")
        /bin/sleep 1
        [ $(($(taken "$1") - before)) -le $(($(getconf CLK_TCK) / 20)) ] && return 0
    done
    return 1
}
has_ended() {
    local turn
    for turn in $(seq 300); do
        kill -0 "$1" 2> /dev/null || return 0
        /bin/sleep 0.1
    done
    kill -KILL "$1"
    return 1
}
mkfifo live
rpq --asks asks --replies replies queries live > events &
run=$!
exec 3> live
head -n 10 chain >&3
has_written "+ edge v9 v10"
count $? "a live run: the block of the tenth tuple isn't there"
is_idle "$run"
count $? "a live run of ten tuples that waits takes processor time"
tail -n +11 chain >&3
has_written "@70001 1 70000 r b v0 +"
count $? "a live run: the block of the last tuple isn't there"
is_idle "$run"
count $? "a live run of 70,001 tuples that waits takes processor time"
exec 3>&-
has_ended "$run"
count $? "a live run of nine readers: it doesn't end with its stream"
wait "$run"
count $? "a live run of nine readers: the status isn't 0"
rpq queries chain | cmp -s - events
count $? "a live run of nine readers: it writes another text"
grep -q '^@[0-9]* wait 10$' replies && ! grep -q '^@70001 wait 10$' replies
count $? "a live run of nine readers: the one that waits for the tenth tuple is answered at the end"
[ "$(grep -c '^@70001 wait 1000000 ended$' replies)" -eq 8 ]
count $? "a live run of nine readers: the others aren't answered at the end"

# Readers over named pipes. This script holds both ends of them, but not of the second one's replies,
# whose client goes away. Nobody takes the replies of the first one, and they are more than a pipe
# holds. The third asks nothing, and the fourth is answered all the same.
mkdir "$place/readers"
cd "$place/readers" || exit 1
echo 'query edge window 1000000 slide 1 arbitrary: a' > queries
seq 4000 | sed 's/.*/& s& a t&/' > stream
with_readers=() asks=() replies=()
for number in 1 2 3 4; do
    mkfifo "asks$number" "replies$number"
    with_readers+=(--reader "asks$number" "replies$number")
    exec {pipe}<> "asks$number"
    asks[number]="$pipe"
    [ "$number" -eq 2 ] && continue
    exec {pipe}<> "replies$number"
    replies[number]="$pipe"
done
mkfifo feed
exec {feed}<> feed
(
    for pipe in "$feed" "${asks[@]}" "${replies[@]}"; do exec {pipe}>&-; done
    exec rpq --endless "${with_readers[@]}" queries feed > events 2> errors
) &
run=$!
exec {client}< replies2
# whether this line is answered to a reader whose replies come on this pipe
is_answered() {
    local reply
    read -r -t 60 reply <&"$1" && [ "$reply" = "$2" ]
    count $? "readers over pipes: no reply \`$2\` but \`$reply\`"
}
head -n 2000 stream >&"$feed"
echo "wait 2000" >&"${asks[4]}"
is_answered "${replies[4]}" "@2000 wait 2000"
yes "answers edge" | head -n 20 >&"${asks[1]}"
echo "to edge t7" >&"${asks[2]}"
is_answered "$client" "@2000 to edge t7 1"
is_answered "$client" "s7"
exec {client}<&-
echo "clock" >&"${asks[2]}"
tail -n +2001 stream >&"$feed"
printf 'wait 4000\nno ask\ncount edge\n' >&"${asks[4]}"
is_answered "${replies[4]}" "@4000 wait 4000"
is_answered "${replies[4]}" "error line 3: shape"
is_answered "${replies[4]}" "@4000 count edge 4000"
is_idle "$run"
count $? "readers over pipes: a run that waits takes processor time"
exec {feed}>&-
printf 'wait 4611686018427387903\nend\n' >&"${asks[4]}"
is_answered "${replies[4]}" "@4000 wait 4611686018427387903 ended"
is_answered "${replies[4]}" "end"
echo "end" >&"${asks[3]}"
is_answered "${replies[3]}" "end"
echo "end" >&"${asks[1]}"
/bin/sleep 1
kill -0 "$run"
count $? "readers over pipes: the run doesn't wait for the replies that nobody took"
exec {client}< replies1
pipe="${replies[1]}"
exec {pipe}>&-
cat <&"$client" > taken &
has_ended "$run"
count $? "readers over pipes: the run doesn't end with its readers"
wait "$run"
[ $? -eq 9 ] && [ "$(cat errors)" = "rpq: write failed: reader 2" ]
count $? "readers over pipes: no status 9, or another line than that of the second one"
cmp -s events <(rpq queries stream)
count $? "readers over pipes: the run writes another text"
wait
awk '/^@/ { heads++; wanted += $4; if ($0 != "@" $4 " answers edge " $4) exit 1 } END {
    if (heads != 20 || NR != 20 + wanted + 1 || $0 != "end") exit 1 }' taken
count $? "readers over pipes: the one whose replies came late has others"
for pipe in "$client" "${asks[@]}" "${replies[3]}" "${replies[4]}"; do exec {pipe}>&-; done

# Where one allocation is refused, a run ends with the same bytes or with 8. Most meet the engine,
# which is rebuilt for the first one, and then the run goes on: more than half end with all bytes.
refusing="$place/refusing.so"
if cc -shared -fPIC -o "$refusing" "$top/tools/refusing_malloc.c" -ldl 2> /dev/null; then
    awk 'BEGIN {
        for (line = 1; line <= 600; line++) {
            for (one = 0; one < 3; one++) number[one] = last = (last * 75 + 74) % 65537
            print int(line / 4), "v" number[0] % 12, substr("abc", 1 + number[1] % 3, 1),
                "v" number[2] % 12 (number[1] % 16 == 15 ? " -" : "")
        }
    }' > stream
    echo 'query q window 30 slide 5 arbitrary: a/(b|c)*' > queries
    rpq --workers 1 queries stream > whole
    refused() { timeout 10 env LD_PRELOAD="$refusing" "$@" rpq --workers 1 queries stream; }
    refused REFUSED=0 REFUSED_COUNT=count > /dev/null
    runs=0 alike=0 faults=0
    for number in $(seq 1 23 "$(cat count)"); do
        refused REFUSED="$number" > events 2> errors
        case $? in
            0) cmp -s events whole && alike=$((alike + 1)) || faults=$((faults + 1)) ;;
            8) cmp -s errors <(echo "rpq: memory") || faults=$((faults + 1)) ;;
            *) faults=$((faults + 1)) ;;
        esac
        runs=$((runs + 1))
    done
    [ "$faults" -eq 0 ]
    count $? "one allocation refused: $faults of $runs runs end in another way"
    [ "$runs" -gt 0 ] && [ $((2 * alike)) -gt "$runs" ]
    count $? "one allocation refused: $alike of $runs runs go on"
else
    echo "documents: no C compiler, so no allocation is refused"
fi

# Where a signal ends the program, the blocks of the lines that came stand there whole.
cd "$place/files" || exit 1
mkfifo live
for signal in INT TERM; do
    # ended in the end, also where the program is gone before it opens the pipe
    timeout 20 bash -c '{ cat stream; /bin/sleep 4; } > live' 2> /dev/null &
    timeout --preserve-status -s "$signal" 2 bash -c 'exec rpq queries live > events' 2> errors
    [ $? -eq $((128 + $(kill -l "$signal"))) ] && [ ! -s errors ]
    count $? "SIG$signal: no end by the signal"
    cmp -s events <(rpq queries stream)
    count $? "SIG$signal: the events aren't the blocks of the lines that came"
    wait
done

# What runs with `--faults` do.
. "$top/tools/faulty-lines.sh"

# What the scripts say where they are used in a wrong way.
. "$top/tools/wrong-uses.sh"

# What packaging/install.sh installs runs, and a package has it.
prefix="$place/prefix"
cd "$place/files" || exit 1
"$top/packaging/install.sh" "$prefix" "$program" > /dev/null
count $? "install.sh: the status isn't 0"
"$prefix/bin/rpq" queries stream > events && cmp -s events <(rpq queries stream)
count $? "install.sh: the installed program writes another text"
for script in rpq-to-stream rpq-json rpq-alerts rpq-ask; do
    "$prefix/bin/$script" --help > /dev/null
    count $? "install.sh: $script --help"
done
words="$(bash -c '. "$1"; COMP_WORDS=(rpq --pa); COMP_CWORD=1; _rpq; echo "${COMPREPLY[*]}"' \
    - "$prefix/share/bash-completion/completions/rpq")"
[ "$words" = "--paths" ]
count $? "the completion of --pa is $words"
for option in $(rpq 2>&1 | grep -oE -- '--[a-z-]+' | sort -u); do
    grep -q -- "$(echo "$option" | sed 's/-/\\\\-/g')" "$prefix/share/man/man1/rpq.1" &&
        grep -q -- "$option" "$prefix/share/bash-completion/completions/rpq"
    count $? "$option isn't in the man page or the completion"
done
if command -v dpkg-deb > /dev/null; then
    "$top/packaging/package.sh" "$program" 1.0 > /dev/null &&
        dpkg-deb -c rpq_1.0_*.deb | grep ' \./usr/bin/rpq$' > /dev/null
    count $? "package.sh: no package with the program"
fi

echo "$passed passed, $failed failed"
[ "$failed" -eq 0 ]
