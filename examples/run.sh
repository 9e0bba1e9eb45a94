#!/bin/sh
# Builds both examples, runs them on samples/, and compares what they print with examples/expected/; then on what they can't read or write.
# Exit status: 0 all as expected, 1 some not, 2 wrong words, or a build that failed. 77: the compiler that this machine lacks cannot be had; nothing
# was compared.
set -eu
me=examples/run.sh root=$(dirname "$(dirname "$(readlink -f "$0")")")
. "$root/bin/kit.sh"
usage="usage: examples/run.sh: builds both examples, runs them on samples/, and compares what they print with examples/expected/"
case ${1-}:$# in
:0) ;;
-h:1 | --help:1) echo "$usage" && exit ;;
*) echo "$usage" >&2 && exit 2 ;;
esac
. "$root/harness/setup.sh"
ready_for_c || exit
out=$here/target/examples && mkdir -p "$out"
compile_c -std=c99 -Wall -Wextra -pedantic -Werror -I"$root/include" "$root/examples/c/main.c" "$archive" -o "$out/in-c" &&
    compile_rust -D warnings "$root/examples/rust/main.rs" -o "$out/in-rust" || give_up "the examples could not be built"

compared=0 differing=0
# counts a run, by its example, what it was run on, its exit status and that expected; the last words are a test of what it printed
counts() { # EXAMPLE WHAT STATUS WANTED TEST..
    said="$1 on $2, exit status $3, not $4"
    [ "$3" -eq "$4" ] && is_right=yes || is_right=
    shift 4
    "$@" || is_right=
    compared=$((compared + 1))
    [ -n "$is_right" ] || { differing=$((differing + 1)) && echo "differs: $said"; }
}

printf '\003\005\001' >"$out/empty.in" # a track without an image: refused
# a capture that begins a turn before the track and ends in a block: that is less than a turn round all the same
first=$root/samples/first-track.in
{ head -c 3 "$first" && head -c 10416 /dev/zero && tail -c +4 "$first" | head -c 4800; } >"$out/second-turn.in"
printf '\003\005\001\000\000\001\000' >"$out/no-stamps.flux"
for given in "$root"/samples/*.in "$root"/samples/*.flux "$out/empty.in" "$out/second-turn.in" "$out/no-stamps.flux"; do
    name=$(basename "$given") && name=${name%.*}
    case $name in empty | dropout | no-stamps) wanted=1 ;; *) wanted=0 ;; esac
    for example in in-c in-rust; do
        status=0
        run_program "$out/$example" "$given" >"$out/$name.$example" || status=$?
        counts $example "$(basename "$given")" $status $wanted diff -u "$root/examples/expected/$name.out" "$out/$name.$example"
    done
done

# what can't be read or written: status 2, nothing printed, and a line that says which file and why
printf '\003\005' >"$out/short.in"
head -c 2000 "$root/samples/capture.flux" >"$out/cut.flux"
for example in in-c in-rust; do
    for given in "$out/missing.in:No such file" "$out:s a directory" "$out/short.in:fewer than three bytes" \
        "$out/cut.flux:ends within a stamp"; do
        status=0
        run_program "$out/$example" "${given%%:*}" >"$out/printed" 2>"$out/said" || status=$?
        counts $example "${given%%:*}" $status 2 eval '[ ! -s "$out/printed" ] && grep -q "${given%%:*}.*${given##*:}" "$out/said"'
    done
    status=0
    run_program "$out/$example" "$root/samples/worn.in" >/dev/full 2>"$out/said" || status=$?
    counts $example "a full disk" $status 2 grep -q "output could not be written.*No space" "$out/said"
    status=0
    run_program "$out/$example" >"$out/printed" 2>"$out/said" || status=$?
    counts $example "no words" $status 2 grep -q "^usage: " "$out/said"
done
echo "examples: $((compared - differing)) runs as expected, $differing not"
[ "$differing" -eq 0 ]
