# Sourced by bin/test-scripts: the program dump, by bin/dump and by itself, on inputs and outputs that fail.
find_kit
build program dump || exit
sample=$root/samples/worn.in printed=$work/worn.out
printf 'track 5 1 3\n1 1\n2 26\n3 1\n4 23\n5 1\n6 21\n7 26\n8 1\nidents 1 0\n' >"$printed"
printf 'refused 1\n' >"$work/refused-1.out"
program() { run_program "$root/target/bin/dump" "$@"; }
dump() { "$root/bin/dump" "$@"; }
# what each says of an input that can't be read: WHY BYTES
unread() { echo "dump: the input could not be read: $1 dump: bytes read before that: $2 "; }

# inputs that are right
try "a file" 0 "$printed" "" dump "$sample"
try "the standard input" 0 "$printed" "" dump <"$sample"
try "the standard input by -" 0 "$printed" "" dump - <"$sample"
ln -s "$sample" "$work/link"
try "a link to a file" 0 "$printed" "" dump "$work/link"
cp "$sample" "$work/-x"
try "a file called -x" 0 "$printed" "" eval 'cd "$work" && dump -- -x'
try "a file called -x by its folder" 0 "$printed" "" eval 'cd "$work" && dump ./-x'
try "a pipe" 0 "$printed" "" eval 'cat "$sample" | dump'
try "a pipe that brings a byte at a time" 0 "$printed" "" eval '{ head -c 2 "$sample"; sleep 0.1; tail -c +3 "$sample"; } | dump -'
mkfifo "$work/fifo"
try "a named pipe" 0 "$printed" "" eval 'cat "$sample" >"$work/fifo" & dump "$work/fifo"'
{ printf 'four' && cat "$sample"; } >"$work/offset"
try "the standard input from where it stands" 0 "$printed" "" eval '{ dd bs=1 count=4 of=/dev/null 2>/dev/null; dump; } <"$work/offset"'
try "planned defects" 0 <(printf 'track 5 1 3\n1 1\n2 1\n3 3\n4 1\n5 1\n6 3\n7 1\n8 1\nidents 0 0\n') "" dump "$root/samples/defect.in"
try "forbidden letters" 0 <(
    printf 'track 0 0 0\n'
    for sector in {1..26}; do
        case $sector in 20 | 24) echo $sector 27 ;; *) echo $sector $((sector < 19 ? 1 : 2)) ;; esac
    done
    printf 'idents 0 0\n'
) "" dump "$root/samples/forbidden.in"
: >"$work/empty"
try "an empty file" 1 "$work/refused-1.out" "" dump "$work/empty"
try "two bytes" 1 "$work/refused-1.out" "" eval 'printf "\3\5" | dump'
try "more than any image" 1 "$work/refused-1.out" "" eval '{ cat "$sample" && head -c 100000 /dev/zero; } >"$work/long"; dump "$work/long"'

# inputs that can't be read: nothing is printed
try "a file that is not there" 2 "" "bin/dump: can't read $work/none: No such file or directory " dump "$work/none"
try "a file without a name" 2 "" "bin/dump: can't read : No such file or directory " dump ""
try "a link to nothing" 2 "" "bin/dump: can't read $work/nowhere: No such file or directory " eval 'ln -s none "$work/nowhere"; dump "$work/nowhere"'
try "a file below a file" 2 "" "bin/dump: can't read $sample/x: Not a directory " dump "$sample/x"
try "a directory" 2 "" "$(unread "Is a directory" 0)bin/dump: no track was printed, from $work " dump "$work"
try "a directory as the standard input" 2 "" "$(unread "Is a directory" 0)bin/dump: no track was printed, from the standard input " dump <"$work"
try "a device that fails" 2 "" "$(unread "Input/output error" 0)bin/dump: .* " dump /proc/self/mem
try "an input open for writing alone" 2 "" "$(unread "Bad file descriptor" 0)bin/dump: .* " eval 'dump 0>/dev/null'
try "a closed input" 2 "" "bin/dump: standard input is closed " eval 'dump <&-'
try "a file, and a closed input" 0 "$printed" "" eval 'dump "$sample" <&-'

# a terminal whose other end is gone ends in an error, and not in an end of file; and a socket
bytes_then_error() { # COUNT COMMAND..
    python3 -c '
import os, sys, tty
count, path, command = int(sys.argv[1]), sys.argv[2], sys.argv[3:]
near, far = os.openpty()
tty.setraw(far)
if os.fork() == 0:
    os.close(near)
    data = open(path, "rb").read(count)
    while data:
        data = data[os.write(far, data):]
    os._exit(0)
os.close(far)
os.dup2(near, 0)
os.close(near)
os.execvp(command[0], command)' "$1" "$sample" "${@:2}"
}
from_socket() { # COMMAND..
    python3 -c '
import socket, subprocess, sys
near, far = socket.socketpair()
process = subprocess.Popen(sys.argv[2:], stdin=far)
near.sendall(open(sys.argv[1], "rb").read())
near.close()
sys.exit(process.wait())' "$sample" "$@"
}
if python3 --version >/dev/null 2>&1; then
    try "a socket" 0 "$printed" "" from_socket "$root/bin/dump"
    for count in 0 2 3 100 20000 20835; do
        try "an input that fails after $count bytes" 2 "" "$(unread "Input/output error" $count)bin/dump: no track was printed, from the standard input " \
            bytes_then_error $count "$root/bin/dump"
    done
    try "the program on one that fails after 20000 bytes" 0 "" "$(unread "Input/output error" 20000)" \
        bytes_then_error 20000 ${emulator:+"$emulator"} "$loader" --library-path "$libraries" "$root/target/bin/dump"
else
    echo "not run: inputs that fail halfway, and a socket, since there is no python3 here"
fi

# outputs that are lost
exit_as_noted() { return "$(cat "$work/status")"; }
try "a full disk" 2 "" "bin/dump: the output could not be written: No space left on device " eval 'dump "$sample" >/dev/full'
try "a full disk for a refusal" 2 "" "bin/dump: the output could not be written: No space left on device " eval 'dump "$work/empty" >/dev/full'
try "a closed output" 2 "" "bin/dump: standard output is closed " eval 'dump "$sample" >&-'
try "an output open for reading alone" 2 "" "bin/dump: the output could not be written: Bad file descriptor " eval 'dump "$sample" 1<"$sample"'
try "a pipe that nobody reads" 2 "" "bin/dump: the output could not be written.* " eval '{ dump "$sample"; echo $? >"$work/status"; } | true; exit_as_noted'
try "a closed standard error" 0 "$printed" "" eval 'dump "$sample" 2>&-'
try "a closed standard error, and nothing to read" 2 "" "" eval 'dump "$work" 2>&-'

# the program by itself has no exit status
try "the program on a file" 0 "$printed" "" program <"$sample"
try "the program on a directory" 0 "" "$(unread "Is a directory" 0)" program <"$work"
try "the program on a full disk" 0 "" "dump: the output could not be written: No space left on device " eval 'program <"$sample" >/dev/full'
try "the program on a full disk, refused" 0 "" "dump: the output could not be written: No space left on device " eval 'program <"$work/empty" >/dev/full'
try "the program on an output open for reading alone" 0 "" "dump: the output could not be written: Bad file descriptor " eval 'program <"$sample" 1<"$sample"'
