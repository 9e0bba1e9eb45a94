# Sourced by bin/test-scripts behind dumped.sh, whose functions it uses: the program cartridge_file, by bin/cartridge-file and by itself, on files that are
# cut, too long, or longer than what is kept of one, and on inputs and outputs that fail.
build program cartridge_file || exit
sample=$root/samples/cartridge.file printed=$work/cartridge.out
cat >"$printed" <<'END'
label "LATHE 3, AXIS TABLE"
cylinder 0 side 0 layout 0: 1 1 1 1 1 1 1 1 1 1 1 1 1 1 1 1 1 1 2 2 2 2 2 2 2 2
cylinder 0 side 1 layout 1: 1 1 1 26 1 1 1 1 1 1 1 1 1 1 1 1 1 1 1 1 1 1 2 2 2 2
cylinder 5 side 1 layout 3: 1 26 1 23 1 21 26 1
tracks 3, sectors 60, data bytes 13824
END
for number in 31 32 33 34 35; do echo "refused $number" >"$work/refused-$number.out"; done
program() { run_program "$root/target/bin/cartridge_file" "$@"; }
file() { "$root/bin/cartridge-file" "$@"; }
unread() { echo "cartridge-file: the input could not be read: $1 cartridge-file: bytes read before that: $2 "; }

# these bytes; and a number in four
bytes() { printf "$(printf '\\x%02x' "$@")"; }
count() { bytes $(($1 >> 24)) $(($1 >> 16 & 255)) $(($1 >> 8 & 255)) $(($1 & 255)); }
# Makes the file NAME, and NAME.out, which is to be printed: tracks of layout 3 from cylinder 1 on, of whose sectors the first READ answer 1, the others 21.
make_file() { # NAME LABEL TRACKS READ
    local track sector tracks=() answers=()
    {
        echo "label \"$2\""
        for ((track = 2; track < $3 + 2; track++)); do
            tracks+=($((track / 2)) $((track % 2)) 3)
            printf 'cylinder %d side %d layout 3:' $((track / 2)) $((track % 2))
            for ((sector = 0; sector < 8; sector++)); do
                answers+=($((${#answers[@]} < $4 ? 1 : 21)))
                printf ' %d' "${answers[-1]}"
            done
            echo
        done
        echo "tracks $3, sectors ${#answers[@]}, data bytes $((1024 * $4))"
    } >"$work/$1.out"
    {
        count ${#2} && printf %s "$2"
        count "$3" && bytes "${tracks[@]}"
        count ${#answers[@]} && bytes "${answers[@]}"
        count $((1024 * $4)) && head -c $((1024 * $4)) /dev/zero
    } >"$work/$1"
}
size_is() { [ "$(wc -c <"$1")" -eq "$2" ]; }

# files that are right
try "a cartridge's file" 0 "$printed" "" file "$sample"
try "one from the standard input" 0 "$printed" "" file <"$sample"
try "one from the standard input by -" 0 "$printed" "" file - <"$sample"
try "one from a pipe" 0 "$printed" "" eval 'cat "$sample" | file'
try "one from a pipe that brings a byte at a time" 0 "$printed" "" eval '{ head -c 2 "$sample"; sleep 0.1; tail -c +3 "$sample"; } | file -'
try "one from a named pipe" 0 "$printed" "" eval 'cat "$sample" >"$work/fifo" & file "$work/fifo"'
cp "$sample" "$work/-f"
try "one called -f" 0 "$printed" "" eval 'cd "$work" && file -- -f'
head -c 16 /dev/zero >"$work/counts"
label_alone() { printf 'label "%s"\ntracks 0, sectors 0, data bytes 0\n' "$1"; }
try "nothing but counts" 0 <(label_alone "") "" file "$work/counts"
lettered() { # ANSWERS..: the file of a track of layout 3 with these answers, of which three have data
    count 0 && count 1 && bytes 5 1 3 && count 8 && bytes "$@" && count 3072 && head -c 3072 /dev/zero
}
for answers in "3 27 21 26 1 27 27 3" "27 27 2 22 3 25 3 27"; do
    try "planned defects and forbidden letters" 0 \
        <(printf 'label ""\ncylinder 5 side 1 layout 3: %s\ntracks 1, sectors 8, data bytes 3072\n' "$answers") "" eval 'lettered $answers | file'
done

# every byte that a label can have, 64 at a time
numbers() { printf '\\x%02x' $(seq "$1" "$2"); }
label_from() { # FIRST PRINTED
    { count 64 && bytes $(seq "$1" $(($1 + 63))) && head -c 12 /dev/zero; } >"$work/label"
    try "the label's bytes from $1 on" 0 <(label_alone "$2") "" file "$work/label"
}
label_from 0 "$(numbers 0 31) !\\x22#\$%&'()*+,-./0123456789:;<=>?"
label_from 64 "@ABCDEFGHIJKLMNOPQRSTUVWXYZ[\\x5c]^_\`abcdefghijklmnopqrstuvwxyz{|}~\\x7f"
label_from 128 "$(numbers 128 191)"
label_from 192 "$(numbers 192 255)"

# files that are refused: one for each number, and the vectors, whose sections have these places and counts
refused() { # WHAT NUMBER COMMAND..
    try "$1" 1 "$work/refused-$2.out" "" "${@:3}"
}
refused "an empty file" 31 file "$work/empty"
refused "an empty input" 31 file </dev/null
refused "a cut file" 31 eval 'head -c -1 "$sample" | file'
refused "a label of 81 bytes" 32 eval '{ count 81 && head -c 93 /dev/zero; } | file'
refused "an answer without a track" 33 eval '{ bytes 0 0 0 0 0 0 0 0 0 0 0 1 1 && count 0; } | file'
refused "a data byte without an answer" 34 eval '{ bytes 0 0 0 0 0 0 0 0 0 0 0 0 0 0 0 1 1; } | file'
refused "a file with a byte left over" 35 eval '{ cat "$sample" && bytes 0; } | file'
refused "two files" 35 eval 'cat "$sample" "$sample" | file'
looks "there are vectors of files" [ -s "$root/vectors/files/INDEX" ]
while read -r vector number _ _ _ tracks _ answers _ data name; do
    if [ "$number" -eq 0 ]; then
        try "vector $vector, $name" 0 <(echo "tracks $tracks, sectors $answers, data bytes $data") "" \
            eval 'program <"$root/vectors/files/$vector.file" | tail -n 1'
    else
        try "vector $vector, $name" 0 "$work/refused-$number.out" "" program <"$root/vectors/files/$vector.file"
    fi
done <"$root/vectors/files/INDEX"

# files that are longer than what is kept of them, 65,536 bytes: the first ones alone say what is printed, but every byte counts
for label in 123456 1234567 12345678; do
    make_file "edge-${#label}" "$label" 91 63
    try "a file of $((65529 + ${#label})) bytes" 0 "$work/edge-${#label}.out" "" file "$work/edge-${#label}"
    refused "it is cut" 31 eval 'head -c -1 "$work/edge-${#label}" | file'
    refused "it has a byte left over" 35 eval '{ cat "$work/edge-${#label}" && bytes 0; } | file'
done
looks "one of them is just as long" size_is "$work/edge-7" 65536
make_file long "TWENTY CYLINDERS" 40 320
make_file longest "$(printf '%080d' 0)" 148 1184
for name in long longest; do
    try "a $name file" 0 "$work/$name.out" "" file "$work/$name"
    try "a $name file from a pipe" 0 "$work/$name.out" "" eval 'cat "$work/$name" | file'
    refused "a $name file that is cut" 31 eval 'head -c -1 "$work/$name" | file'
    refused "a $name file with a byte left over" 35 eval '{ cat "$work/$name" && bytes 0; } | file'
    refused "a $name file that is cut where what is kept of it ends" 31 eval 'head -c 65536 "$work/$name" | file'
done
refused "zeros without an end" 35 file /dev/zero
refused "a long file, and zeros without an end" 35 eval 'cat "$work/long" /dev/zero | file'
refused "a head that is refused, without an end" 32 eval '{ bytes 1 && cat /dev/zero; } | file'

# inputs that can't be read: nothing is printed
try "a cartridge's file that is not there" 2 "" "bin/cartridge-file: can't read $work/none: No such file or directory " file "$work/none"
try "a directory for a file" 2 "" "$(unread "Is a directory" 0)bin/cartridge-file: no file was printed, from $work " file "$work"
try "an input open for writing alone, for a file" 2 "" "$(unread "Bad file descriptor" 0)bin/cartridge-file: .* " eval 'file 0>/dev/null'
try "a closed input, for a file" 2 "" "bin/cartridge-file: standard input is closed " eval 'file <&-'
try "a cartridge's file, and a closed input" 0 "$printed" "" eval 'file "$sample" <&-'
if python3 --version >/dev/null 2>&1; then
    try "one from a socket" 0 "$printed" "" from_socket "$root/bin/cartridge-file"
    fails_after() { # COUNT
        try "a file that fails after $1 bytes of $(wc -c <"$sample")" 2 "" \
            "$(unread "Input/output error" "$1")bin/cartridge-file: no file was printed, from the standard input " \
            bytes_then_error "$1" "$root/bin/cartridge-file"
    }
    # the last of each is a whole file: that nothing follows it is not known
    for count in 0 2 100 10000 13928; do fails_after $count; done
    sample=$work/edge-7
    for count in 65535 65536; do fails_after $count; done
    sample=$work/long
    for count in 65535 65536 65537 200000 "$(wc -c <"$sample")"; do fails_after "$count"; done
    sample=$root/samples/cartridge.file
else
    echo "not run: files that fail halfway, and a socket, since there is no python3 here"
fi

# outputs that are lost
full="the output could not be written: No space left on device "
try "a full disk for a file" 2 "" "bin/cartridge-file: $full" eval 'file "$sample" >/dev/full'
try "a full disk for a refused file" 2 "" "bin/cartridge-file: $full" eval 'file "$work/empty" >/dev/full'
try "a closed output for a file" 2 "" "bin/cartridge-file: standard output is closed " eval 'file "$sample" >&-'
try "a pipe that nobody reads, for a file" 2 "" "bin/cartridge-file: the output could not be written.* " \
    eval '{ file "$sample"; echo $? >"$work/status"; } | true; exit_as_noted'
try "a closed standard error for a file" 0 "$printed" "" eval 'file "$sample" 2>&-'

# the program by itself has no exit status
try "the program on a directory, for a file" 0 "" "$(unread "Is a directory" 0)" program <"$work"
try "the program on a full disk, for a file" 0 "" "cartridge-file: $full" eval 'program <"$sample" >/dev/full'
try "the program on a full disk, for a refused file" 0 "" "cartridge-file: $full" eval 'program <"$work/empty" >/dev/full'
