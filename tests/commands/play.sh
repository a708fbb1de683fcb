#!/usr/bin/env bash
# The command `play`: what it prints, says and ends with. Needs the bench program, target/bin/mileage_bench, no older than its sources.
# Exit 0: all is as wanted.
set -uo pipefail
cd "$(dirname "$0")/../.." || exit 1
program=target/bin/mileage_bench
work=$(mktemp -d) || exit 1
trap 'rm -rf "$work"' EXIT
failed=0

wrong() {
    echo "play.sh: $*" >&2
    failed=1
}

# played STATUS NAME WORD...: `play WORD...`, with standard input as it is, ends with this status; leaves what it wrote.
played() {
    local wanted=$1 name=$2 status=0
    shift 2
    ./play "$@" >"$work/out" 2>"$work/err" || status=$?
    [ "$status" -eq "$wanted" ] || wrong "$name: status $status, wanted $wanted: $(cat "$work/err")"
}

said() {
    grep -qF -- "$2" "$work/err" || wrong "$1: nothing is said of '$2': $(cat "$work/err")"
}

silent() {
    [ ! -s "$work/err" ] || wrong "$1: said: $(cat "$work/err")"
}

# the listing is the program's own
listed() {
    "$program" <"$2" | cmp -s - "$work/out" || wrong "$1: not the program's listing"
}

# A script by name, on standard input and as -.
for script in scripts/*; do
    played 0 "$script" "$script" </dev/null
    listed "$script" "$script"
    silent "$script"
    for words in "" -; do
        # shellcheck disable=SC2086
        played 0 "$script on input" $words <"$script"
        listed "$script on input" "$script"
        silent "$script on input"
    done
done
played 0 "a script through a pipe" <(cat scripts/clean_close_r)
listed "a script through a pipe" scripts/clean_close_r

# A hint beside the listing: which bytes, and what is said.
hinted() {
    printf %b "$1" >"$work/script"
    played 0 "$2" "$work/script"
    listed "$2" "$work/script"
    if [ -n "$2" ]; then said "the script $1" "$2"; else silent "the script $1"; fi
}
hinted 'B,3,7\nP,0,5\n' ''
hinted 'B,3,7\n' ''
hinted '' 'is empty'
hinted 'B,3,7\nP,0,5\r\n' 'carriage return'
hinted 'B,3,7\r\n' 'carriage return'
hinted 'B,3,7\nP,0,5' 'does not end in a newline'
hinted 'B,3,7' 'does not end in a newline'
{ printf 'B,3,7\n' && yes 'K,0' | head -c 32762; } >"$work/longest"
played 0 "32,768 bytes" "$work/longest"
listed "32,768 bytes" "$work/longest"
{ cat "$work/longest" && printf '\n'; } >"$work/too_long"
played 0 "32,769 bytes" "$work/too_long"
listed "32,769 bytes" "$work/too_long"
said "32,769 bytes" 'longer than 32768 bytes'

# Help, and wrong use.
for word in -h --help; do
    played 0 "$word" "$word" </dev/null
    grep -q '^play \[SCRIPT\]' "$work/out" || wrong "$word: no help on standard output"
    silent "$word"
done
played 2 "two scripts" scripts/clean_close_b scripts/clean_close_r
said "two scripts" 'one script at a time'
said "two scripts" 'play [SCRIPT]'
played 2 "an unknown option" --listing
said "an unknown option" 'unknown option: --listing'
played 1 "a name after --" -- -h
said "a name after --" 'no such script: -h'
cp scripts/clean_close_b "$work/a name with blanks"
played 0 "a name with blanks" "$work/a name with blanks"
listed "a name with blanks" scripts/clean_close_b
status=0
./play --help >/dev/full 2>"$work/err" || status=$?
[ "$status" -eq 1 ] || wrong "help on a full disk: status $status"
played 1 "no script" "$work/nothing"
said "no script" 'no such script'
played 1 "a folder" scripts
said "a folder" 'a folder'

# A full disk, and a reader that has gone.
status=0
./play scripts/clean_close_b >/dev/full 2>"$work/err" || status=$?
[ "$status" -eq 1 ] || wrong "a full disk: status $status"
said "a full disk" 'not written whole'
(
    sleep 0.3
    status=0
    ./play "$work/longest" 2>"$work/err" || status=$?
    echo "$status" >"$work/status"
) | true
[ "$(cat "$work/status")" = 1 ] || wrong "a closed pipe: status $(cat "$work/status")"
said "a closed pipe" 'not written whole'

# Builds, in a tree of its own with another rt. It prints a line, and waits where it is told to until the line was seen; it can fail, build nothing,
# or end well without a word.
tree=$work/tree
mkdir -p "$tree/crates/mileage_bench/src" "$work/path" "$work/temporary"
cp play "$tree/play"
: >"$tree/crates.txt"
cat >"$work/path/rt" <<RT
#!/bin/sh
cat >/dev/null
[ "\$*" = run ] && [ "\${PWD##*/}" = mileage_bench ] || exit 7
echo "0,?,-,8,-,-"
[ ! -e "$work/mute" ] || exec 2>/dev/null
exec >&2
echo "library std: modules loaded=0"
echo "crate tally: modules loaded=7 checked=0"
[ -e "$work/broken" ] || echo "logic=proved functions=17"
for i in 1 2 3 4 5 6 7 8 9; do [ ! -e "$work/wait" ] || sleep 1; done
[ ! -e "$work/broken" ] || { echo "error: it is not so"; echo "fn tally::number: not proved"; exit 1; }
[ -e "$work/nothing" ] || { mkdir -p out && cp "$PWD/$program" out/mileage_bench; }
RT
chmod +x "$work/path/rt"
# build STATUS NAME: plays a script on standard input
build() {
    local status=0
    TMPDIR=$work/temporary PATH=$work/path:$PATH "$tree/play" <scripts/clean_close_b >"$work/out" 2>"$work/err" || status=$?
    [ "$status" -eq "$1" ] || wrong "$2: status $status, wanted $1: $(cat "$work/err")"
    [ "$1" -ne 0 ] || listed "$2" scripts/clean_close_b
    [ -z "$(ls -A "$work/temporary")" ] || wrong "$2: a temporary file is left"
}
touch "$work/broken"
build 1 "a build that fails"
said "a build that fails" 'error: it is not so'
said "a build that fails" 'fn tally::number: not proved'
said "a build that fails" 'was not built'
rm "$work/broken"
touch "$work/nothing"
build 1 "a build of nothing"
said "a build of nothing" 'built no bench program'
rm "$work/nothing"
build 0 "a build"
said "a build" 'tally is checked'
[ "$(grep -c 'minutes' "$work/err")" -eq 1 ] || wrong "a build: how long it takes is not said once"
! grep -q 'modules loaded' "$work/err" || wrong "a build: more than the prover's own lines is shown"
build 0 "a second time"
silent "a second time"

# Older than a source: it builds again, and once only, also where rt finds nothing to do.
touch -d '1 hour ago' "$tree/target/bin/mileage_bench"
touch "$work/nothing"
build 0 "an older program"
said "an older program" 'building the bench program'
build 0 "an older program, once more"
silent "an older program, once more"
rm -f "$work/nothing" "$tree/target/bin/mileage_bench"
touch "$work/mute"
build 0 "a build without a word"
rm -f "$work/mute" "$tree/target/bin/mileage_bench"

# The prover's lines come while it builds.
touch "$work/wait"
build 0 "a build that takes long" &
for ((i = 0; i < 50; i++)); do
    ! grep -qs 'tally is checked' "$work/err" || break
    sleep 0.1
done
seen=0
[ -x "$tree/target/bin/mileage_bench" ] || ! grep -qs 'tally is checked' "$work/err" || seen=1
rm "$work/wait"
wait
[ "$seen" -eq 1 ] || wrong "the prover's lines are not shown while it builds"

# Called through a link, from another folder; and without rt.
ln -s "$tree/play" "$work/link"
(cd / && "$work/link" "$OLDPWD/scripts/clean_close_b") >"$work/out" 2>"$work/err" || wrong "through a link: $(cat "$work/err")"
listed "through a link" scripts/clean_close_b
rm "$tree/target/bin/mileage_bench"
mkdir "$work/bare"
for tool in bash cat cp dirname find grep head mkdir mktemp readlink rm sed tail tee touch wc; do ln -s "$(command -v "$tool")" "$work/bare/$tool"; done
status=0
PATH=$work/bare "$tree/play" scripts/clean_close_b >"$work/out" 2>"$work/err" || status=$?
[ "$status" -eq 1 ] || wrong "without rt: status $status"
said "without rt" 'rt is not on PATH'

# A program that ends otherwise than with 0.
mkdir -p "$tree/target/bin"
printf '#!/bin/sh\nexit 3\n' >"$tree/target/bin/mileage_bench"
chmod +x "$tree/target/bin/mileage_bench"
status=0
"$tree/play" scripts/clean_close_b >"$work/out" 2>"$work/err" || status=$?
[ "$status" -eq 1 ] || wrong "a program that fails: status $status"
said "a program that fails" 'ended with status 3'

[ "$failed" -eq 0 ] || exit 1
echo "play.sh: listings, hints, help, wrong use, a full disk, a closed pipe and builds are as wanted"
