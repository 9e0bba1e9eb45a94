# Sourced by bin/test-scripts behind dumped.sh and filed.sh, whose functions it uses: the program flux_track, by bin/flux and by itself, on captures that are
# refused, cut within a stamp, or longer than any image takes, and on inputs and outputs that fail.
build program flux_track || exit
# what was captured: the image's last byte has a cell 1 too
sample=$root/samples/capture.flux track=$root/samples/clean.in
program() { run_program "$root/target/bin/flux_track" "$@"; }
flux() { "$root/bin/flux" "$@"; }
unread() { echo "flux: the input could not be read: $1 flux: bytes read before that: $2 "; }
none="bin/flux: no track was written, from"
cut_off() { echo "flux: the input ends within a stamp, after so many bytes: $1 "; } # BYTES

# a capture from these intervals on: layout 1, cylinder 5, side 0, the ticks, and the stamps from FIRST on
capture() { # TICKS FIRST INTERVALS..
    local at=$2 interval
    bytes 1 5 0 && count "$1" && count "$at"
    for interval in "${@:3}"; do
        at=$(((at + interval) & 0xFFFFFFFF))
        count "$at"
    done
}
image_of() { printf '\1\5\0' && bytes "$@"; }

# captures that are right
try "a capture" 0 "$track" "" flux "$sample"
try "a capture from the standard input" 0 "$track" "" flux <"$sample"
try "a capture from the standard input by -" 0 "$track" "" flux - <"$sample"
try "a capture from a pipe" 0 "$track" "" eval 'cat "$sample" | flux'
try "a capture from a pipe that brings a byte at a time" 0 "$track" "" eval '{ head -c 6 "$sample"; sleep 0.1; tail -c +7 "$sample"; } | flux -'
try "a capture from a named pipe" 0 "$track" "" eval 'cat "$sample" >"$work/fifo" & flux "$work/fifo"'
try "a capture that is dumped" 0 <(printf 'track 5 1 3\n' && printf '%d 1\n' 1 2 3 4 5 6 7 8 && printf 'idents 0 0\n') "" eval 'flux "$sample" | dump'
try "one stamp" 0 <(image_of 0x80) "" eval 'capture 100 7 | flux'
try "two, three and four half cells" 0 <(image_of 0xA4 0x40) "" eval 'capture 100 7 100 150 200 | flux'
try "the counter runs over" 0 <(image_of 0xA4 0x40) "" eval 'capture 100 4294967100 100 150 200 | flux'
try "eight cells" 0 <(image_of 0xA9) "" eval 'capture 16 0 16 16 24 | flux'

# captures that are refused: the line goes to the output, and a sentence to standard error
refused() { # WHAT WORDS WHY COMMAND..
    try "$1" 1 <(echo "refused $2") "bin/flux: no track: $3 \\(refused ${2%% *}\\) " "${@:4}"
}
range="the ticks of a nominal bit cell are not 16 to 1,024"
refused "an empty capture" 41 "$range" flux "$work/empty"
refused "three bytes" 41 "$range" eval 'bytes 1 5 0 | flux'
refused "six bytes" 41 "$range" eval 'bytes 1 5 0 0 0 0 | flux'
refused "15 ticks" 41 "$range" eval 'capture 15 0 15 | flux'
refused "1,025 ticks" 41 "$range" eval 'capture 1025 0 1025 | flux'
refused "ticks and no stamp" 42 "there is no stamp" eval '{ bytes 1 5 0 && count 100; } | flux'
refused "an interval in no band" "43 2" "interval 2 is in no band" eval 'capture 100 0 100 125 100 | flux'
refused "a stamp twice" "43 1" "interval 1 is in no band" eval 'capture 100 0 0 | flux'
refused "a transition lost" "43 1000" "interval 1000 is in no band" flux "$root/samples/dropout.flux"
# a vector by what it shows, since only a long capture has more cells than an image
of_vector() { echo "$root/vectors/flux/$(sed -n "s/^\\([0-9]*\\) $1\$/\\1/p" "$root/vectors/flux/INDEX")"; }
full=$(of_vector "as many cells as the image has")
try "as many cells as an image has" 0 "$full.out" "" flux "$full.in"
more=$(of_vector "a cell more: refused 44") past="there are more cells than an image can have"
refused "a cell more" 44 "$past" flux "$more.in"
refused "what follows it is not looked at" 44 "$past" eval '{ cat "$more.in" && head -c 4000 /dev/zero; } | flux'
refused "a stamp of any time in its place" "43 49153" "interval 49153 is in no band" eval '{ cat "$full.in" && count 0; } | flux'

# inputs that end within a stamp, or can't be read: nothing is written
for count in 1 2 3; do
    try "a capture that ends $count bytes behind a stamp" 2 "" "$(cut_off $((15 + count)))$none $work/cut " \
        eval '{ capture 100 7 100 && head -c $count /dev/zero; } >"$work/cut"; flux "$work/cut"'
    try "a track's capture that ends within its last stamp" 2 "" "$(cut_off $(($(wc -c <"$sample") - count)))$none the standard input " \
        eval 'head -c -$count "$sample" | flux'
done
try "a capture that is not there" 2 "" "bin/flux: can't read $work/none: No such file or directory " flux "$work/none"
try "a directory for a capture" 2 "" "$(unread "Is a directory" 0)$none $work " flux "$work"
try "an input open for writing alone, for a capture" 2 "" "$(unread "Bad file descriptor" 0)$none the standard input " eval 'flux 0>/dev/null'
try "a closed input, for a capture" 2 "" "bin/flux: standard input is closed " eval 'flux <&-'
try "a capture, and a closed input" 0 "$track" "" eval 'flux "$sample" <&-'
if python3 --version >/dev/null 2>&1; then
    try "a capture from a socket" 0 "$track" "" from_socket "$root/bin/flux"
    # the last is a whole capture: that nothing follows it is not known
    for count in 0 2 3 7 100 10000 "$(wc -c <"$sample")"; do
        try "a capture that fails after $count bytes" 2 "" "$(unread "Input/output error" "$count")$none the standard input " \
            bytes_then_error "$count" "$root/bin/flux"
    done
else
    echo "not run: captures that fail halfway, and a socket, since there is no python3 here"
fi

# outputs that are lost
full="the output could not be written: No space left on device "
try "a full disk for a capture" 2 "" "bin/flux: $full" eval 'flux "$sample" >/dev/full'
try "a full disk for a refused capture" 2 "" "bin/flux: $full" eval 'flux "$work/empty" >/dev/full'
try "a closed output for a capture" 2 "" "bin/flux: standard output is closed " eval 'flux "$sample" >&-'
try "a pipe that nobody reads, for a capture" 2 "" "bin/flux: the output could not be written.* " \
    eval '{ flux "$sample"; echo $? >"$work/status"; } | true; exit_as_noted'
try "a closed standard error for a capture" 0 "$track" "" eval 'flux "$sample" 2>&-'

# the program by itself has no exit status
try "the program on a capture" 0 "$track" "" program <"$sample"
try "the program on a refused capture" 0 <(echo "refused 43 1000") "" program <"$root/samples/dropout.flux"
try "the program on a capture that is cut" 0 "" "$(cut_off 18)" program <"$work/cut"
try "the program on a directory, for a capture" 0 "" "$(unread "Is a directory" 0)" program <"$work"
try "the program on a full disk, for a capture" 0 "" "flux: $full" eval 'program <"$sample" >/dev/full'
try "the program on a full disk, for a refused capture" 0 "" "flux: $full" eval 'program <"$work/empty" >/dev/full'
