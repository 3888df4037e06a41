# shellcheck shell=bash disable=SC2154
# What runs with `--faults` do. This is a part of tools/documents.sh, which has the folder $place,
# the top of the repository, `count`, `ends_with`, `is_idle` and `has_ended`.
mkdir "$place/faults"
cd "$place/faults" || exit 1
cp "$place"/files/{queries,stream,joins,asks,window} .
printf 'wait 2\n' > live

# Words that are refused make no file.
for words in "stream stream" "stream --faults unmade" "stream --faults" "" \
    --check "--generate 3"; do
    # shellcheck disable=SC2086
    ends_with 1 "rpq: words" "--faults with the words '$words'" rpq --faults unmade queries $words
done
mapfile -t few < <(seq 63 | sed 's/^/--faults=unmade/')
ends_with 1 "rpq: words" "63 files of faults for 64 streams" \
    rpq "${few[@]}" queries "${many[@]:0:64}"
[ "$(find . -name 'unmade*')" = "" ]
count $? "words with --faults that are refused: a file was made"

# So are files that can't be opened, the run's own ones by any of their names, and one file twice.
# The files of faults are opened behind that of --save, and before the replies of readers.
all=(rpq --joins joins --asks asks --replies replies --from window --save saved)
cp -r . "$place/kept-faults"
ln -s stream link-to-stream
ln stream second-stream
for name in . nowhere/f queries joins asks window stream live ./stream "$PWD/stream" \
    link-to-stream second-stream replies ./saved; do
    rm -f saved
    ends_with 6 "rpq: write failed: faults 1" "faults into $name" \
        "${all[@]}" --reader live unmade --faults "$name" queries stream
    [ -e saved ] && [ ! -e unmade ]
    count $? "faults into $name: the window's file wasn't made, or a reader's was"
done
for name in queries joins asks window stream live; do
    cmp -s "$name" "$place/kept-faults/$name"
    count $? "faults into the file $name: the file is another one"
done
for name in both ./both; do
    ends_with 6 "rpq: write failed: faults 2" "faults of two streams into one file, $name" \
        rpq --faults both --faults "$name" queries stream stream
done
ends_with 6 "rpq: write failed: faults 2" "faults of two streams into one device" \
    rpq --faults /dev/null --faults /dev/null queries stream stream
ends_with 6 "rpq: write failed: reader 1" "replies into a file of faults" \
    rpq --faults both --reader live ./both queries stream
echo before > events
into_events() { rpq "$@" >> events; }
ends_with 6 "rpq: write failed: faults 1" "faults into the events" \
    into_events --faults events queries stream
cmp -s events <(echo before)
count $? "faults into the events: they are others"

# A stream with a faulty line whose faults can't be written ends there, and no other one does.
{ head -n 3 stream; echo 'no edge'; tail -n +4 stream; } > faulty
own() { sed -n "s/^@[0-9]* $1 //p" events; }
to_files() { rpq "$@" > events; }
ends_with 6 "rpq: write failed: faults 1" "faults on a full device" \
    to_files --faults /dev/full --faults told queries faulty faulty
cmp -s <(own 1) <(rpq queries stream | sed -n 's/^@[0-9]* 1 //p' | head -n 2) &&
    cmp -s <(own 2) <(rpq queries stream | sed -n 's/^@[0-9]* 1 //p') &&
    [ "$(cat told)" = "line 4: fields 2: no edge" ]
count $? "faults on a full device: other tuples of a stream, or other faults of the second one"
rpq --faults /dev/full queries stream > events && cmp -s events <(rpq queries stream)
count $? "a full device for faults that don't come: no status 0, or other events"

# With each option a run writes what it writes over the good lines alone, and saves the same window.
# The faulty lines are told as they are, whatever is in them and however long they are.
awk 'BEGIN {
    srand(3)
    for (line = 1; line <= 4000; line++)
        print line, "v" int(rand() * 40), substr("abc", 1 + int(rand() * 3), 1),
            "v" int(rand() * 40)
}' > good
printf 'query %s\n' 'p window 70 slide 5 arbitrary: a/b' 'r window 30 slide 4 simple: c+' > some
echo 'join both p ?x ?y r ?y ?z' > some-joins
# the faulty lines, each with what is told of it
perl -e '
    open my $mixed, ">", "mixed"; open my $due, ">", "due";
    my @wrong = (["x", "time"], ["1 x a", "fields 3"], ["1 x a y ?", "operation"],
        ["1 x a y until z", "until"], ["7" x 30, "time range"], ["1 x \0 y", "name 3"],
        ["1 x\r a y\r\r", "name 2"], ["1 x a y\r\r", "name 4"], ["\xff\xfe", "time"],
        ["line 1: time: x", "time"], ["#" x 1025, "too long"], ["1 x a y" . " " x 1100, "too long"],
        ["#" x 1024 . "\r", "too long"], [" " x 70000, "too long"]);
    my $number = 0;
    while (<>) {
        print $mixed $_;
        $number++;
        next if $. % 3;
        my ($line, $fault) = @{$wrong[$. / 3 % @wrong]};
        print $mixed "$line\n";
        $line =~ s/\r$// if length $line <= 1024;
        printf $due "line %d: %s: %s\n", ++$number, $fault, substr $line, 0, 1024;
    }' good
for words in "" --endless --two-way --paths "--joins some-joins" "--from window" \
    "--history 2000"; do
    rm -f saved*
    saves=()
    [ "$words" = --two-way ] || saves=(--save saved)
    # shellcheck disable=SC2086
    rpq $words "${saves[@]}" some good > events-of-good 2> errors-of-good
    status=$?
    [ ! -e saved ] || mv saved saved-of-good
    # shellcheck disable=SC2086
    rpq $words "${saves[@]}" --faults told some mixed > events 2> errors
    [ $? -eq "$status" ] && cmp -s events events-of-good && cmp -s errors errors-of-good &&
        { [ ! -e saved-of-good ] || cmp -s saved saved-of-good; }
    count $? "faulty lines apart with '$words': another status, other events, or another window"
    # the saved window has one line; and behind 2,000 tuples the history is full
    case $words in
        --from*) perl -pe 's/^line (\d+)/"line " . ($1 + 1)/e' due ;;
        --history*) head -n 666 due ;;
        *) cat due ;;
    esac | cmp -s - told
    count $? "faulty lines apart with '$words': other faults"
done
{ echo '1 x a y'; head -c 30000000 /dev/zero | tr '\0' x; printf '\n2 y b z\n'; } > long
[ "$(rpq --faults told some long | tail -n 1)" = "+ p x z" ] && [ "$(wc -c < told)" -eq 1043 ]
count $? "a line of 30 MB: what comes behind it isn't taken, or it is told otherwise"

# Over pipes: a faulty line is told before the next one is there. A stream whose faults nobody takes
# waits with them, and no other one, nor the readers; it goes on once they are taken. One whose
# faults nobody can take any more ends alone.
names=(feed1 feed2 feed3 faults1 faults2 faults3 asks1 replies1)
mkfifo "${names[@]}"
declare -A ends=()
for name in "${names[@]}"; do
    [ "$name" = faults3 ] && continue
    exec {pipe}<> "$name"
    ends[$name]=$pipe
done
(
    for pipe in "${ends[@]}"; do exec {pipe}>&-; done
    exec rpq --endless --reader asks1 replies1 --faults faults1 --faults faults2 --faults faults3 \
        queries feed1 feed2 feed3 > events 2> errors
) &
run=$!
exec {third}< faults3
# whether this line comes on the pipe of this name
comes() {
    local line
    read -r -t 60 line <&"${ends[$1]}" && [ "$line" = "$2" ]
    count $? "faults over pipes: no line \`$2\` on $1 but \`$line\`"
}
printf '1 s a t\nno edge\n' >&"${ends[feed1]}"
comes faults1 "line 2: fields 2: no edge"
echo "wait 1" >&"${ends[asks1]}"
comes replies1 "@1 wait 1"
{ yes 'no edge' | head -n 9000; echo '3 s a u'; } > many-faults
cat many-faults >&"${ends[feed2]}" &
writer=$!
/bin/sleep 1
printf '2 t a u\n' >&"${ends[feed1]}"
echo "wait 2" >&"${ends[asks1]}"
comes replies1 "@2 wait 2"
is_idle "$run"
count $? "faults over pipes: a run whose faults nobody takes takes processor time"
exec {third}<&-
printf 'no edge\n4 u a v\n' >&"${ends[feed3]}"
head -n 9000 <&"${ends[faults2]}" > taken
wait "$writer"
cmp -s taken <(seq 9000 | sed 's/.*/line &: fields 2: no edge/')
count $? "faults over pipes: other faults of the stream that waited"
echo "wait 3" >&"${ends[asks1]}"
comes replies1 "@3 wait 3"
for name in feed1 feed2 feed3; do pipe=${ends[$name]}; exec {pipe}>&-; done
printf 'wait 4611686018427387903\nend\n' >&"${ends[asks1]}"
comes replies1 "@3 wait 4611686018427387903 ended"
has_ended "$run"
count $? "faults over pipes: the run doesn't end"
wait "$run"
[ $? -eq 6 ] && [ "$(cat errors)" = "rpq: write failed: faults 3" ]
count $? "faults over pipes: no status 6, or another line than that of the third stream"
[ "$(grep -c '^@' events)" -eq 3 ]
count $? "faults over pipes: other entries"
for name in faults1 faults2 asks1 replies1; do pipe=${ends[$name]}; exec {pipe}>&-; done

# continue.sh over a log with faulty lines that is rotated: all runs write what one run writes, and
# tell each faulty line once, with its number in the file that it was in.
split -n l/3 mixed part.
head -n 700 part.aa > log
sh "$top/examples/continue.sh" 300 some log state 2> /dev/null
count $? "continue.sh over faulty lines: the status isn't 0"
tail -n +701 part.aa >> log
mv log log.2
cp part.ab log.1
cp part.ac log
sh "$top/examples/continue.sh" 300 some log state 2> /dev/null
count $? "continue.sh over a rotated log: the status isn't 0"
rpq some good | cmp -s - <(cat state/events.*)
count $? "continue.sh over a rotated log: other events"
for name in part.aa part.ab part.ac; do
    rpq --faults told some "$name" > /dev/null
    cat told
done | cmp -s - <(cat state/faults.*)
count $? "continue.sh over a rotated log: other faults"
mv log other
cp part.aa log
ends_with 1 "continue.sh: the file that was log is gone: begin another STATE" \
    "continue.sh over a log that is gone" sh "$top/examples/continue.sh" 300 some log state
cd "$place" || exit 1
