# Sourced by bin/test-scripts: the scripts in a copy of the repository, in a folder with a space in its name, with a kit that pretends. It proves
# nothing and takes no time; PRETENDED says how a build goes, PROGRAM how the program does.
copy="$work/a copy" pretended=$work/kit
mkdir -p "$copy/harness" "$copy/examples" "$copy/elsewhere" "$pretended/bin" "$pretended/toolchain/bin" "$pretended/toolchain/lib"
cp -R "$root/bin" "$copy/bin"
cp "$root"/harness/*.sh "$copy/harness" && cp "$root/examples/run.sh" "$copy/examples"
printf 'one:\ntwo: one # above it\ndump: one two io libc\ncartridge_file: two io\nflux_track: two io\nstation: two\nstation_c staticlib: station\nother: one\n' >"$copy/crates.txt"
for crate in one two dump cartridge_file flux_track station station_c other; do
    mkdir -p "$copy/crates/$crate/src" "$copy/crates/$crate/must-fail" "$copy/crates/$crate/out"
    echo "$crate" >"$copy/crates/$crate/src/lib.rt"
done
cat >"$pretended/bin/rt" <<'END'
#!/bin/sh
kit=$(dirname "$(dirname "$(readlink -f "$0")")")
case $1 in
doc) echo "$kit/START-HERE.md" && exit ;;
version) echo "a kit that pretends" && exit ;;
esac
crate=$(basename "$PWD")
[ "$crate" != one ] || echo "$*" >>"$kit/calls" # every build begins with it
cat >/dev/null # whoever lends it the standard input loses that
mkdir -p out
case ${PRETENDED:-proves}:$1:$crate in
refuses:*:two)
    echo "src/lib.rt:1:1: error: it is not so" >&2
    echo "logic=not-proved"
    exit 1
    ;;
forgets:*) exit ;;
esac
echo "fn $crate::f: proved"
echo "logic=proved functions=1"
case $1:$crate in
run:*) cp "$kit/program" "out/$crate" && echo "what it says, where it has no input" && exit 3 ;;
lib:*_c) : >"out/lib$crate.a" ;;
esac
END
cat >"$pretended/program" <<'END'
#!/bin/sh
case ${PROGRAM:-prints} in
prints) echo "track $(wc -c) 0 0" && echo "1 21" && echo "idents 0 0" ;;
refuses) echo "refused 4" ;;
is-cut) printf 'track 1 0 0\n1 21\n' ;;
is-silent) ;;
babbles) echo "tracks" ;;
prints-file) echo "label \"$(wc -c)\"" && echo "tracks 0, sectors 0, data bytes 0" ;;
is-cut-file) printf 'label "tracks 1"\ncylinder 1 side 0 layout 3: 1 1' ;;
fails-file) printf 'label ""\ntracks 0, sectors 0, data bytes 0\n' && exit 3 ;;
makes) printf '\1\5\0\252' && wc -c ;;
makes-letters) printf 'ref\365sed 43 5\n' ;;
refuses-flux) echo "refused ${REFUSED:-43 17}" ;;
makes-less) printf '\1\5\0' ;;
makes-and-says) printf '\1\5\0\252' && echo "the output could not be written" >&2 ;;
makes-and-fails) printf '\1\5\0\252' && exit 3 ;;
dies) printf 'track 1 0 0\nidents 0 0\n' && kill -9 $$ ;;
fails) printf 'track 1 0 0\nidents 0 0\n' && exit 3 ;;
esac
END
printf '#!/bin/sh\nshift 2\nexec "$@"\n' >"$pretended/toolchain/lib/ld-linux-x86-64.so.2"
printf '#!/bin/sh\nexec "$@"\n' >"$pretended/toolchain/bin/qemu-x86_64"
chmod +x "$pretended/bin/rt" "$pretended/program" "$pretended/toolchain/lib/"* "$pretended/toolchain/bin/"*

# the script at PATH from FOLDER, with that kit in front
from() { (cd "$1" && PATH=$pretended/bin:$PATH && shift && "$@"); }
dump() { from "$copy" bin/dump "$@"; }
calls() { [ "$(cat "$pretended/calls" 2>/dev/null | wc -l)" -eq "$1" ]; }
printf '12345' >"$copy/five"
printf 'track 5 0 0\n1 21\nidents 0 0\n' >"$work/five.out"
printf 'refused 4\n' >"$work/refused.out"

# one of the lines while it builds: CRATE LEFT
left() { echo "bin/dump: proved: $1 \\([0-9]+ s\\), $2 of 3 left "; }

# while it builds: a line for each crate, on standard error alone; what it is not made of is not there
building='bin/dump: building dump, [^ ]* .* bin/dump: to be proved: one two dump'
try "a build tells of each crate" 0 "$work/five.out" \
    "$building $(left one 2)$(left two 1)$(left dump 0)" \
    dump five
looks "one build" calls 1
try "what is built is not built again" 0 "$work/five.out" "" dump five
echo changed >"$copy/crates/other/src/lib.rt" && echo changed >"$copy/crates/two/must-fail/an.edit"
try "nor for what it is not made of" 0 "$work/five.out" "" dump five
looks "no further build" calls 1
echo changed >"$copy/crates/two/src/lib.rt"
try "a changed source is" 0 "$work/five.out" "$building .* 0 of 3 left " dump five
touch -d "1 hour ago" "$copy/crates/one/src/lib.rt" && echo older >"$copy/crates/one/src/more.rt" && touch -d "1 hour ago" "$copy/crates/one/src/more.rt"
try "an older one too" 0 "$work/five.out" "$building .* 0 of 3 left " dump five
rm "$copy/crates/one/src/more.rt"
try "a source that is gone too" 0 "$work/five.out" "$building .* 0 of 3 left " dump - <"$copy/five"
looks "four builds" calls 4
rm -rf "$copy/target"
try "a build leaves the standard input alone" 0 "$work/five.out" "$building .* 0 of 3 left " dump <"$copy/five"

# a build that fails
rm -rf "$copy/target"
PRETENDED=refuses try "a build that fails" 2 "" \
    "$building $(left one 2).*error: it is not so .*bin/dump: dump could not be built; .* " dump five
PRETENDED=forgets try "a build that leaves nothing" 2 "" "$building .* bin/dump: rt left no crates/dump/out/dump: .* " dump five
PRETENDED=refuses try "vectors, where the build fails" 2 "" ".* bin/vectors: dump could not be built; .* " from "$copy" bin/vectors "$root/vectors"
PRETENDED=refuses try "harness, where the build fails" 2 "" \
    "harness/run.sh: building station.*: to be proved: one two station station_c .* harness/run.sh: station could not be built; .* " \
    from "$copy" harness/run.sh c
PRETENDED=refuses try "examples, where the build fails" 2 "" ".* examples/run.sh: station could not be built; .* " from "$copy" examples/run.sh
took='\([0-9]+ s\)'
library() { (me=library root=$copy && PATH=$pretended/bin:$PATH && build library station); }
try "the library" 0 "" \
    "library: building .*: one $took, 3 of 4 left .*: two $took, 2 of 4 left .*: station $took, 1 of 4 left library: proved: station_c $took, 0 of 4 left " library
try "is not built again" 0 "" "" library

# no kit, or one that can't run a program here
mkdir "$work/tools"
for tool in awk basename bash cat cmp cut dirname env find flock grep id mkdir mktemp readlink rm sed sh sha256sum sort tail tr uname wc xargs; do
    path=$(command -v "$tool") && ln -s "$path" "$work/tools/$tool"
done
without_kit() { (cd "$copy" && PATH=$work/tools && "$@"); }
no_kit="the Rattle kit is needed, and its command rt is not on the path \\(PATH\\) "
try "dump without a kit" 2 "" "bin/dump: $no_kit" without_kit bin/dump five
try "flux without a kit" 2 "" "bin/flux: $no_kit" without_kit bin/flux five
try "cartridge-file without a kit" 2 "" "bin/cartridge-file: $no_kit" without_kit bin/cartridge-file five
try "vectors without a kit" 2 "" "bin/vectors: $no_kit" without_kit bin/vectors "$root/vectors"
try "harness without a kit" 2 "" "harness/run.sh: $no_kit" without_kit harness/run.sh
try "examples without a kit" 2 "" "examples/run.sh: $no_kit" without_kit examples/run.sh
chmod -x "$pretended/toolchain/lib/ld-linux-x86-64.so.2"
try "a kit without a loader" 2 "" "bin/dump: the Rattle kit at .* can't run a program here: .* " dump five
chmod +x "$pretended/toolchain/lib/ld-linux-x86-64.so.2"

# by any path, from any folder, through links
dump five >/dev/null 2>&1 # builds
ln -s "../bin/dump" "$copy/elsewhere/first" && ln -s "first" "$copy/elsewhere/second"
ln -s ../five "$copy/elsewhere/link"
try "from another folder" 0 "$work/five.out" "" from / "$copy/bin/dump" "$copy/five"
try "by a path up" 0 "$work/five.out" "" from "$copy/elsewhere" ../bin/dump ../five
try "in its own folder" 0 "$work/five.out" "" from "$copy/bin" ./dump ../five
try "through a link to a link" 0 "$work/five.out" "" from "$copy/elsewhere" ./second link
try "by the path" 0 "$work/five.out" "" from "$copy" env "PATH=$copy/elsewhere:$pretended/bin:$PATH" second five
try "by the shell" 0 "$work/five.out" "" from "$copy/elsewhere" env CDPATH=/ bash second link

# what the program did
PROGRAM=refuses try "a refused call" 1 "$work/refused.out" "" dump five
PROGRAM=is-cut try "half a track" 2 "" "bin/dump: no track was printed, from five " dump five
PROGRAM=is-silent try "nothing" 2 "" "bin/dump: no track was printed, from the standard input " dump <"$copy/five"
PROGRAM=babbles try "something else" 2 "" "bin/dump: no track was printed, from five " dump five
PROGRAM=fails try "a track, and a status" 2 "" "bin/dump: no track was printed, from five " dump five
PROGRAM=dies try "a track, and a signal" 2 "" ".*bin/dump: no track was printed, from five " dump five

# the other program: its script does the same, by the same function
file() { from "$copy" bin/cartridge-file "$@"; }
printf 'label "5"\ntracks 0, sectors 0, data bytes 0\n' >"$work/five-file.out"
PROGRAM=prints-file try "a cartridge's file, and its build" 0 "$work/five-file.out" \
    "bin/cartridge-file: building cartridge_file, .*: to be proved: one two cartridge_file .*: proved: cartridge_file $took, 0 of 3 left " file five
PROGRAM=prints-file try "it is not built again" 0 "$work/five-file.out" "" file <"$copy/five"
ln -s "../bin/cartridge-file" "$copy/elsewhere/file"
PROGRAM=prints-file try "a cartridge's file through a link" 0 "$work/five-file.out" "" from "$copy/elsewhere" ./file link
PROGRAM=prints-file try "a file for a track" 2 "" "bin/dump: no track was printed, from five " dump five
PROGRAM=refuses try "a refused file" 1 "$work/refused.out" "" file five
PROGRAM=is-cut-file try "half a file" 2 "" "bin/cartridge-file: no file was printed, from five " file five
PROGRAM=is-silent try "nothing of a file" 2 "" "bin/cartridge-file: no file was printed, from the standard input " file <"$copy/five"
PROGRAM=prints try "a track for a file" 2 "" "bin/cartridge-file: no file was printed, from five " file five
PROGRAM=fails-file try "a file, and a status" 2 "" "bin/cartridge-file: no file was printed, from five " file five
echo changed >"$copy/crates/cartridge_file/src/lib.rt"
PRETENDED=refuses try "a cartridge's file, where the build fails" 2 "" ".* bin/cartridge-file: cartridge_file could not be built; .* " file five

# the program whose output is bytes: they go through no variable, and what is kept of them is removed
flux() { from "$copy" env TMPDIR="$work/made" bin/flux "$@"; }
mkdir "$work/made"
printf '\1\5\0\2525\n' >"$work/five-track.out"
printf 'ref\365sed 43 5\n' >"$work/letters.out"
PROGRAM=makes try "a track, and its build" 0 "$work/five-track.out" \
    "bin/flux: building flux_track, .*: to be proved: one two flux_track .*: proved: flux_track $took, 0 of 3 left " flux five
PROGRAM=makes try "from the standard input" 0 "$work/five-track.out" "" flux <"$copy/five"
PROGRAM=makes-letters try "a track that begins almost as a refusal" 0 "$work/letters.out" "" flux five
for refused in "41:the ticks of a nominal bit cell are not 16 to 1,024" "42:there is no stamp" "43 17:interval 17 is in no band" \
    "44:there are more cells than an image can have"; do
    PROGRAM=refuses-flux REFUSED=${refused%%:*} try "a capture refused by ${refused%%:*}" 1 <(echo "refused ${refused%%:*}") \
        "bin/flux: no track: ${refused#*:} \\(refused ${refused:0:2}\\) " flux five
done
PROGRAM=is-silent try "nothing of a track" 2 "" "bin/flux: no track was written, from five " flux five
PROGRAM=makes-less try "no byte of an image" 2 "" "bin/flux: no track was written, from the standard input " flux <"$copy/five"
PROGRAM=makes-and-says try "a track that is not whole" 2 "" "the output could not be written bin/flux: no track was written, from five " flux five
PROGRAM=makes-and-fails try "a track in bytes, and a status" 2 "" "bin/flux: no track was written, from five " flux five
PROGRAM=refuses-flux try "a refusal, and a full disk" 2 "" "bin/flux: the output could not be written: No space left on device " eval 'flux five >/dev/full'
PROGRAM=makes try "a track, and no temporary folder" 2 "" ".*bin/flux: can't make a temporary folder " from "$copy" env TMPDIR="$work/none" bin/flux five
looks "nothing is left of what was made" [ -z "$(ls -A "$work/made")" ]
echo changed >"$copy/crates/flux_track/src/lib.rt"
PRETENDED=refuses try "a track, where the build fails" 2 "" ".* bin/flux: flux_track could not be built; .* " flux five

# words
usage_of() { PATH=$pretended/bin:$PATH "$@" >"$work/usage.out" 2>/dev/null; }
usage_of "$copy/bin/dump" --help
looks "dump --help says how it ends" grep -q "^Exit status: 0 .* 1 .* 2 " "$work/usage.out"
try "dump -h" 0 "$work/usage.out" "" dump -h
try "dump --help through a link" 0 "$work/usage.out" "" from "$copy/elsewhere" ./second --help
try "dump --help, and a full disk" 2 "" ".*bin/dump: the output could not be written " eval 'dump --help >/dev/full'
try "dump with two files" 2 "" "usage: bin/dump .*" dump five five
try "dump with an option that it has not" 2 "" "bin/dump: there is no option --five .*usage: bin/dump .*" dump --five
usage_of "$copy/bin/cartridge-file" --help
looks "cartridge-file --help says how it ends" grep -q "^Exit status: 0 .* 1 .* 2 " "$work/usage.out"
try "cartridge-file -h" 0 "$work/usage.out" "" file -h
try "cartridge-file --help, and a full disk" 2 "" ".*bin/cartridge-file: the output could not be written " eval 'file --help >/dev/full'
try "cartridge-file with two files" 2 "" "usage: bin/cartridge-file .*" file five five
try "cartridge-file with an option that it has not" 2 "" "bin/cartridge-file: there is no option --five .*usage: bin/cartridge-file .*" file --five
usage_of "$copy/bin/flux" --help
looks "flux --help says how it ends" grep -q "^Exit status: 0 .* 1 " "$work/usage.out"
try "flux -h" 0 "$work/usage.out" "" flux -h
try "flux --help, and a full disk" 2 "" ".*bin/flux: the output could not be written " eval 'flux --help >/dev/full'
try "flux with two files" 2 "" "usage: bin/flux .*" flux five five
try "flux with an option that it has not" 2 "" "bin/flux: there is no option --five .*usage: bin/flux .*" flux --five
usage_of "$copy/harness/run.sh" --help
looks "harness --help says what there is" grep -q "harness/run.sh soak SEED ROUNDS" "$work/usage.out"
before=$(cat "$pretended/calls" | wc -l)
ln -s ../harness/run.sh "$copy/elsewhere/run"
try "harness --help by a path up" 0 "$work/usage.out" "" from "$copy/elsewhere" ../harness/run.sh --help
try "harness --help in its own folder" 0 "$work/usage.out" "" from "$copy/harness" ./run.sh -h
try "harness --help through a link" 0 "$work/usage.out" "" from "$copy/elsewhere" ./run --help
for words in nonsense "bench --fast" "c more" "soak 1" "peers make" "--help more" "vectors more"; do
    try "harness $words" 2 "" "harness/run.sh: there is nothing to run by: $words usage.*" eval "from '$copy' harness/run.sh $words"
done
try "examples --help" 0 <(echo "usage: examples/run.sh: builds both examples, runs them on samples/, and compares what they print with examples/expected/") "" \
    from "$copy/elsewhere" ../examples/run.sh --help
try "examples with a word" 2 "" "usage: examples/run.sh.*" from "$copy" examples/run.sh samples
looks "words build nothing" calls "$before"

# vectors
mkdir "$work/no vectors" "$work/vectors"
try "vectors in no folder" 2 "" "bin/vectors: there is no folder $work/none " from "$copy" bin/vectors "$work/none"
try "vectors in an empty folder" 2 "" "bin/vectors: there are no vectors in $work/no vectors: no file NNNN.in " from "$copy" bin/vectors "$work/no vectors"
try "vectors in a file" 2 "" "bin/vectors: there is no folder five " from "$copy" bin/vectors five
try "vectors in two folders" 2 "" "usage: bin/vectors.*" from "$copy" bin/vectors "$work/vectors" "$work/vectors"
cp "$copy/five" "$work/vectors/0001.in" && cp "$work/five.out" "$work/vectors/0001.out"
try "a vector" 0 <(echo "dump: 1 vectors as expected, 0 not") "" from "$copy" bin/vectors "$work/vectors"
cp "$copy/five" "$work/vectors/0002.in" && echo "0002 a wrong one" >"$work/vectors/INDEX" && cp "$work/refused.out" "$work/vectors/0002.out"
cp "$copy/five" "$work/vectors/0003.in"
try "a vector that differs, and one without its output" 1 <(printf 'differs: 0002 a wrong one\ndiffers: 0003\ndump: 1 vectors as expected, 2 not\n') "" \
    from "$copy" bin/vectors "$work/vectors"
mkdir "$work/vectors/flux"
try "captures in an empty folder" 2 <(printf 'differs: 0002 a wrong one\ndiffers: 0003\ndump: 1 vectors as expected, 2 not\n') \
    "bin/vectors: there are no vectors in $work/vectors/flux: no file NNNN.in " from "$copy" bin/vectors "$work/vectors"
rm "$work/vectors"/000[23].*
cp "$copy/five" "$work/vectors/flux/0001.in" && cp "$work/five.out" "$work/vectors/flux/0001.out"
try "a vector and a capture" 0 <(printf '%s: 1 vectors as expected, 0 not\n' dump flux_track) ".* 0 of 3 left " from "$copy" bin/vectors "$work/vectors"
cp "$copy/five" "$work/vectors/flux/0002.in" && echo "0002 a wrong capture" >"$work/vectors/flux/INDEX" && cp "$work/refused.out" "$work/vectors/flux/0002.out"
try "a capture that differs" 1 <(printf 'dump: 1 vectors as expected, 0 not\ndiffers: 0002 a wrong capture\nflux_track: 1 vectors as expected, 1 not\n') "" \
    from "$copy" bin/vectors "$work/vectors"

# peers says what it is about to install before it does
printf '#!/bin/sh\necho 0\n' >"$work/tools/id.root" && chmod +x "$work/tools/id.root" && mv "$work/tools/id.root" "$work/tools/id"
printf '#!/bin/sh\necho "apt-get $*"\n' >"$work/tools/apt-get" && chmod +x "$work/tools/apt-get"
needed="bin/peers: floptool is needed; as root: apt-get install mame-tools "
try "peers, where nothing can be had" 77 "" \
    "bin/peers: floptool is not there: installing Debian's mame-tools by apt-get apt-get update apt-get install .*mame-tools $needed" \
    without_kit bin/peers
printf '#!/bin/sh\necho 1000\n' >"$work/tools/id"
try "peers, where it may not install" 77 "" "$needed" without_kit bin/peers
try "peers with a word" 2 "" "usage: bin/peers .*" without_kit bin/peers all

# the gate's table
cat >"$work/log" <<'END'
rt: cells proved
rt: edc is kept: an earlier run on this machine proved the same files over the same libraries
rt: cells: its tests are proved
rt: must-fail cells/a_b.edit: refused, as it must be: note: src/lib.rt:3:4: it is not so
rt: must-fail cells/c_d.edit: refused, as it must be
5 passed, 0 failed
real	28m58.061s
END
from "$copy" bin/gate-table "$work/log" >"$work/table"
looks "the gate's table" [ "$(grep '^| [ace]' "$work/table")" = "| crate | proof | edits refused |
| cells | proved | 2 |
| edc | kept | 0 |
| all 2 | 1 proved, 1 kept | 2 |" ]
looks "names no edit" [ "$(grep -c a_b "$work/table")" -eq 0 ]
grep -v passed "$work/log" >"$work/no-log"
try "a log without a verdict" 1 "" "bin/gate-table: $work/no-log has no verdict of rt ci " from "$copy" bin/gate-table "$work/no-log"
try "no log" 2 "" "bin/gate-table: can't read $work/none " from "$copy" bin/gate-table "$work/none"
