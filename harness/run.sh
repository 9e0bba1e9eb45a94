#!/bin/sh
# The Rattle library from Rust and from C, on x86-64: comparisons, long run, benchmark. `harness/run.sh --help` says more.
set -eu
usage() {
    cat <<'END'
usage, all of it the Rattle library from Rust and from C, on x86-64:
       harness/run.sh [test]: all comparisons, with the inputs by kind and the answers and refusals that were met; it fails
           where two sides differ, and where one of those numbers was not met
       harness/run.sh test WORDS..: those comparisons in Rust that have such a word in their names
       harness/run.sh c: each exported function from C
       harness/run.sh soak SEED ROUNDS: random comparisons for as long as one likes; soak SEED ROUND --only repeats a round
       harness/run.sh bench [--steps]: the ratios Rattle / Rust of executed instructions and, on x86-64, of time
       harness/run.sh vectors: writes vectors/ and samples/ anew, by the reference alone
       harness/run.sh peers make|compare FOLDER: for bin/peers
Exit status 2: wrong words, or a build that failed. 77: the compiler that this machine lacks cannot be had; nothing was compared,
or nothing in C.
END
}
me=harness/run.sh root=$(dirname "$(dirname "$(readlink -f "$0")")")
. "$root/bin/kit.sh"

wrong_words() { # WORDS..
    say "there is nothing to run by: $*"
    usage >&2
    exit 2
}
what=${1:-test} && [ $# -eq 0 ] || shift
case $what:$# in
-h:0 | --help:0) usage && exit ;;
test:* | c:0 | soak:2 | soak:3 | bench:0 | vectors:0 | peers:2) ;;
bench:1) [ "$1" = --steps ] || wrong_words "$what" "$@" ;;
*) wrong_words "$what" "$@" ;;
esac
. "$root/harness/setup.sh"
export RUST_TEST_NOCAPTURE=1 # each test says how much it compared

c_test() { # 77 where there is no compiler for it
    ready_for_c || return
    mkdir -p "$here/target/c"
    strict="-std=c99 -Wall -Wextra -pedantic -Werror"
    # the header by itself with a record, a file's sections and a flux's result, in C and in C++
    printf '#include "station.h"\n%s\n%s\n%s\n' 'struct station_record none = {STATION_ANSWER_NO_BLOCK, STATION_NO_PLACE, 0};' \
        'struct station_sections of_no_track = {4, STATION_LONGEST_LABEL, 88, 0, 92, 0, 96, 0};' \
        'struct station_flux_result refused = {0, STATION_MOST_TICKS - STATION_LEAST_TICKS};' >"$here/target/c/header.c"
    kit_clang $strict -I"$root/include" -x c -fsyntax-only "$here/target/c/header.c" &&
        kit_clang -std=c++98 -Wall -Wextra -pedantic -Werror -I"$root/include" -x c++ -fsyntax-only "$here/target/c/header.c" &&
        compile_c $strict -O1 -I"$root/include" "$here"/c/*.c "$archive" -o "$here/target/c/station_test" &&
        run_program "$here/target/c/station_test"
}

rust_tests() { # WORDS..
    export HARNESS_TALLY="$here/target/tally" # the tests note there what they met
    rm -f "$HARNESS_TALLY"
    cargo test --offline --tests --target $target -- "$@"
}

program() { # NAME WORDS..
    name=$1
    shift
    exec cargo run --quiet --offline --release --target $target --bin "$name" -- "$@"
}

case $what in
test)
    if [ $# -gt 0 ]; then
        # a word that is in no name would pass for want of tests
        names=$(cargo test --quiet --offline --tests --target $target -- --list "$@") || give_up "the comparisons could not be built"
        echo "$names" | grep -q ': test$' || give_up "no comparison has a name with $*"
        rust_tests "$@"
        echo "not all of the tests: whether every kind was met is not looked at"
        exit
    fi
    in_c=0
    c_test || in_c=$?
    case $in_c in 0) ;; 77) echo "not run: the test in C" ;; *) exit $in_c ;; esac
    rust_tests
    cargo run --quiet --offline --profile test --target $target --bin tally -- "$HARNESS_TALLY"
    exit $in_c
    ;;
c) c_test ;;
vectors) program vectors "$root" ;;
*) program "$what" "$@" ;;
esac
