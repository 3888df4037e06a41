# shellcheck shell=bash disable=SC2154
# What the scripts say where they are used in a wrong way. This is a part of tools/documents.sh, which
# has the folder $place, the top of the repository, and `count`.
mkdir "$place/wrong"
cd "$place/wrong" || exit 1
cp "$place"/files/{queries,stream,joins} .
# whether a command ends with a status, and says a line on its errors
says() {
    local status="$1" line="$2"
    shift 2
    timeout 20 "$@" > output 2> "$place/errors"
    [ $? -eq "$status" ] && grep -qxF -- "$line" "$place/errors"
    count $? "${1##*/} ${*:2}: no status $status, or no line \`$line\`"
}
csv=(rpq-to-stream --time time --from from --to to --as x)
says 2 "rpq-to-stream: nowhere: No such file or directory" "${csv[@]}" nowhere
says 2 "rpq-to-stream: error: argument --as: it is empty" rpq-to-stream --time t --from f --to t --as ''
printf 'time,from,to\n1,"a,b\n2,c,d\n' > open
says 1 "open:2: left out: not CSV: unexpected end of data, up to line 3" "${csv[@]}" open
echo '[{"time":1}]' > array
says 2 "rpq-to-stream: array: a JSON array: make lines of its members, as by jq -c '.[]'" \
    "${csv[@]}" array
says 2 "rpq-to-stream: open: no column when in the first line, which has time, from, to" \
    rpq-to-stream --time when --from from --to to --as x open
printf 'time\tfrom\tto\n1764201600123\ta\tb\n' > milliseconds
hint="if these are milliseconds, say --given milliseconds"
says 0 "rpq-to-stream: a time of 1764201600123 seconds; $hint" \
    "${csv[@]}" --delimiter '\t' milliseconds
printf 'time,from,to\n1,a,b\n' | iconv -t UTF-16 > wide
"${csv[@]}" wide | cmp -s - <(echo "1 a x b")
count $? "rpq-to-stream of UTF-16: another stream"
line="$(rpq --paths queries stream | grep -n '^=' | head -n 1)"
says 2 "rpq-json: line ${line%%:*} is a path: rpq-json needs --paths, too: ${line#*:}" \
    bash -c 'rpq --paths queries stream | rpq-json'
line="$(rpq queries stream | grep -n -A 1 '^+' | sed -n 2p)"
wrong="is no path, and a pair was gained: rpq-json was given --paths, rpq wasn't"
says 2 "rpq-json: line ${line%%-*} $wrong: ${line#*-}" \
    bash -c 'rpq queries stream | rpq-json --paths'
says 2 "rpq-alerts: line ${line%%-*} isn't a line of rpq --paths: ${line#*-}" \
    bash -c 'rpq queries stream | rpq-alerts'
says 2 "rpq-json: nowhere: No such file or directory" rpq-json --joins nowhere
echo '1 x a y' > log
says 2 "rpq-labels: log line 1: no query" rpq-labels log queries
says 2 "rpq-labels: array: no edge in it, so it is no stream" rpq-labels queries array
says 2 "rpq: queries line 1: shape" "$top/examples/shards.sh" 1 log log
says 1 "shards.sh: there are 1 queries for COUNT parts" "$top/examples/shards.sh" 2 queries stream
says 1 "continue.sh: nowhere can't be read" "$top/examples/continue.sh" 2 queries nowhere state
printf '1 x a y\n2 x a y\n3 x a y\n4 x y\n' > log
says 0 "continue.sh: log has faulty lines, which are in state/faults.000000002" \
    "$top/examples/continue.sh" 2 queries log state
cmp -s <(cat state/faults.*) <(echo "line 4: fields 3: 4 x y")
count $? "continue.sh: other faults"
echo '1 x a y' > log
says 1 "continue.sh: log has fewer lines than the 4 taken: begin another STATE" \
    "$top/examples/continue.sh" 2 queries log state
mv log old
echo '1 x a y' > log
says 1 "continue.sh: the file that was log is gone: begin another STATE" \
    "$top/examples/continue.sh" 2 queries log state
mkdir older
echo '# taken 1' > older/window
says 1 "continue.sh: older/window isn't of this script: begin another STATE" \
    "$top/examples/continue.sh" 2 queries log older
printf '1 x a y\n\n# a comment\n2 x a z\n' > log
"$top/examples/continue.sh" 2 queries log blank &&
    "$top/examples/continue.sh" 9 queries log blank &&
    rpq queries log | cmp -s - <(cat blank/events.*)
count $? "continue.sh over a blank line and a comment: other events"
"$top/bench/run.sh" --help | grep -q 'bench/run.sh \[--fast\] --times'
count $? "bench/run.sh --help: it isn't the usage"
says 1 "bench/run.sh: no program bench/nothing.rattle; bench/run.sh --help has the words" \
    "$top/bench/run.sh" nothing
