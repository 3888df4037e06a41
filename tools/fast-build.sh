#!/usr/bin/env bash
# tools/fast-build.sh OUT [CRATE]
#
# Builds the program CRATE (rpq, where it isn't given) optimized and unproved, and leaves it at OUT:
# for comparing prototypes in speed, and for running tools/documents.sh on them. It takes what `rt
# try` compiles, and compiles it once more with -O3, in some three minutes. Only `rt run` and
# `.ci/run` make the program that is proved.
set -eu
[ $# -ge 1 ] && [ $# -le 2 ] || { echo "usage: tools/fast-build.sh OUT [CRATE]" >&2; exit 1; }
[ "${1#-}" = "$1" ] || { echo "usage: tools/fast-build.sh OUT [CRATE]" >&2; exit 1; }
out="$(realpath -m "$1")"
crate="${2:-rpq}"
top="$(cd "$(dirname "$0")/.." && pwd)"
[ -e "$top/crates/$crate/src/main.rt" ] || { echo "fast-build: no program $crate" >&2; exit 1; }
command -v rt >/dev/null 2>&1 || PATH="$PATH:/opt/rattle/bin"
command -v rt >/dev/null 2>&1 || { echo "fast-build: no rt on the path" >&2; exit 1; }
kit="$(dirname "$(dirname "$(realpath "$(command -v rt)")")")"
place="$(mktemp -d)"
trap 'rm -rf "$place"' EXIT
mkdir "$place/tmp" "$place/cut"

# `rt try` compiles the module, runs it and takes it away: it is copied as soon as it stops growing.
(
    cd "$top/crates/$crate"
    TMPDIR="$place/tmp" rt try -- /dev/null /dev/null >"$place/log" 2>&1 || true
    touch "$place/done"
) &
last=0
while [ ! -e "$place/done" ]; do
    module="$(find "$place/tmp" -name module.bc -size +200k 2>/dev/null | head -n 1 || true)"
    if [ -n "$module" ]; then
        size="$(stat -c %s "$module" 2>/dev/null || echo 0)"
        if [ "$size" -gt 0 ] && [ "$size" = "$last" ]; then
            cp "$module" "$place/cut/module.bc" 2>/dev/null &&
                mv "$place/cut/module.bc" "$place/module.bc" || true
        fi
        last="$size"
    fi
    sleep 0.2
done
wait
if [ ! -s "$place/module.bc" ]; then
    tail -n 20 "$place/log" | cut -c 1-400 >&2
    echo "fast-build: rt try compiled no module" >&2
    exit 1
fi
"$kit/toolchain/bin/clang" -w -O3 -c "$place/module.bc" -o "$place/program.o"
"$kit/bin/rattle-link" --target x86_64-unknown-linux-gnu --toolchain "$kit/toolchain" \
    -o "$place/program" "$place/program.o" "$kit/c/libos_c.a" "$kit/c/liblibc_c.a" \
    >"$place/log" 2>&1 || { tail -n 20 "$place/log" | cut -c 1-400 >&2; exit 1; }
mkdir -p "$(dirname "$out")"
mv "$place/program" "$out"
