#!/usr/bin/env bash
# packaging/install.sh PREFIX [PROGRAM | --proved]
#
# Installs rpq below PREFIX, such as /usr/local or ~/.local: the program, the scripts rpq-to-stream,
# rpq-json, rpq-alerts, rpq-labels and rpq-ask, the man page, the completion of bash, and the
# examples.
#
# PROGRAM is a built program. With --proved it is made by `rt run`, which proves it first and takes
# half an hour; without a second word tools/fast-build.sh makes it unproved in three minutes. Both
# need the Rattle kit's rt on the path.
set -eu
usage() { echo "usage: packaging/install.sh PREFIX [PROGRAM | --proved]" >&2; exit 1; }
[ $# -ge 1 ] && [ $# -le 2 ] && [ "${1#-}" = "$1" ] || usage
prefix="$1"
top="$(cd "$(dirname "$0")/.." && pwd)"
place="$(mktemp -d)"
trap 'rm -rf "$place"' EXIT
case "${2:-}" in
    "") program="$place/rpq"; "$top/tools/fast-build.sh" "$program" ;;
    --proved)
        (cd "$top/crates/rpq" && rt run -- data/queries.txt data/stream.txt > "$place/events")
        program="$top/crates/rpq/out/rpq"
        ;;
    -*) usage ;;
    *) program="$2" ;;
esac
[ -x "$program" ] || { echo "install: no program $program" >&2; exit 1; }

install -D -m 755 "$program" "$prefix/bin/rpq"
install -m 755 "$top/scripts/to-stream.py" "$prefix/bin/rpq-to-stream"
install -m 755 "$top/scripts/rpq-json.py" "$prefix/bin/rpq-json"
install -m 755 "$top/scripts/alerts.py" "$prefix/bin/rpq-alerts"
install -m 755 "$top/scripts/labels.py" "$prefix/bin/rpq-labels"
install -m 755 "$top/scripts/ask.py" "$prefix/bin/rpq-ask"
install -D -m 644 "$top/packaging/rpq.1" "$prefix/share/man/man1/rpq.1"
install -D -m 644 "$top/packaging/rpq.bash" "$prefix/share/bash-completion/completions/rpq"
mkdir -p "$prefix/share/doc/rpq"
cp -r "$top/README.md" "$top/docs" "$top/examples" "$prefix/share/doc/rpq/"
echo "installed $prefix/bin/rpq, sha256 $(sha256sum < "$program" | cut -d ' ' -f 1)"
