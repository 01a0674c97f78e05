#!/usr/bin/env bash
# Plays each tests/scripts/NAME.script by built programs, and compares what they write with NAME.transcript, byte for
# byte, and their status with that in NAME.status (no file: 0). NAME.words has the program's words (no file: replay
# patch). The programs are those of COOLWSD, paths that blanks divide, else the two that `rt ci` left in
# crates/coolwsd/out: the one that LLVM built and the one that Rattle's own compiler built. Where that compiler left
# none, which rt ci tells, a line `skipped: ..` says so.
#
#     tests/run_scripts.sh           all scripts
#     tests/run_scripts.sh NAME..    these
#
# The last line is 'N passed, N failed'; a script counts once for each program.
set -u
top="$(cd "$(dirname "$0")/.." && pwd)"
scripts="$top/tests/scripts"
room="$(mktemp -d)" || exit 2
trap 'rm -rf "$room"' EXIT
passed=0 failed=0
fail() { failed=$((failed + 1)); echo "script $1: $2"; }

read -r -a programs <<< "${COOLWSD:-$top/crates/coolwsd/out/coolwsd $top/crates/coolwsd/out/coolwsd.by-rattle}"

# Plays the script NAME by the program.
play() {
    local program="$1" name="$2" base="$scripts/$2" words=(replay patch) wanted=0 status
    [ -f "$base.words" ] && read -r -a words < "$base.words"
    [ -f "$base.status" ] && read -r wanted < "$base.status"
    timeout 60 "$program" "${words[@]}" < "$base.script" > "$room/got" 2> "$room/said"
    status=$?
    if [ "$status" != "$wanted" ]; then
        fail "$name" "status $status, and not $wanted, by ${program##*/}: $(head -c 200 "$room/said")"
    elif ! cmp "$room/got" "$base.transcript" > "$room/differs" 2>&1; then
        fail "$name" "by ${program##*/}: $(head -c 300 "$room/differs")"
    else
        passed=$((passed + 1))
    fi
}

shopt -s nullglob
names=("$@")
if [ ${#names[@]} = 0 ]; then
    for file in "$scripts"/*.script; do
        file="${file##*/}"
        names+=("${file%.script}")
    done
    # a transcript, status or words without a script would be read by nobody
    for file in "$scripts"/*; do
        case "$file" in
            *.script | *.transcript | *.status | *.words) [ -f "${file%.*}.script" ] || fail "${file##*/}" "it has no script" ;;
            *) fail "${file##*/}" "it is no part of a script" ;;
        esac
    done
fi
[ ${#names[@]} -gt 0 ] || fail "tests/scripts" "there are no scripts"

for program in "${programs[@]}"; do
    if [ ! -x "$program" ] && [ -z "${COOLWSD:-}" ] && [ "${program##*.}" = by-rattle ]; then
        echo "skipped: the golden scripts by Rattle's own compiler, which left no program"
        continue
    elif [ ! -x "$program" ]; then
        fail "${program##*/}" "there is no such program: run rt ci first"
        continue
    fi
    for name in "${names[@]}"; do
        play "$program" "$name"
    done
done
echo "$passed passed, $failed failed"
[ "$failed" = 0 ]
