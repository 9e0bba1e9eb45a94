# Sourced by each script that builds or runs something, in sh and in bash. It finds the Rattle kit, builds a program or a library where what it is
# made of changed, and runs programs for x86-64. Who sources it has set `root`, the repository's folder, and `me`, the name to speak under.

say() { echo "$me: $*" >&2; }

# For wrong words, a file that can't be read or written, and a build that failed.
give_up() {
    say "$@"
    exit 2
}

# Sets kit, its tools, and what runs a program for x86-64. On other processors that would be the kit's emulator. Today's kit has none, nor tools for
# such a machine, so there it says what is missing; what the scripts do for Arm waits for a kit that has it.
find_kit() {
    command -v rt >/dev/null 2>&1 || give_up "the Rattle kit is needed, and its command rt is not on the path (PATH)"
    kit=$(dirname "$(rt doc </dev/null)")
    tools=$kit/toolchain/bin libraries=$kit/toolchain/lib
    loader=$libraries/ld-linux-x86-64.so.2 emulator=
    [ "$(uname -m)" = x86_64 ] || emulator=$tools/qemu-x86_64
    for needed in "$loader" ${emulator:+"$emulator"}; do
        [ -x "$needed" ] || give_up "the Rattle kit at $kit can't run a program here: it has no $needed"
    done
}

run_program() { # PROGRAM WORDS..
    ${emulator:+"$emulator"} "$loader" --library-path "$libraries" "$@"
}

# For a script that hands the one input that WORDS name to a program: opens it, and sets `from`, what to call it; or says why not, or how the script is
# used, and exits. The script is in bash, has a function `usage`, and has noted whether it was given an input and an output (has_input, has_output).
take_input() { # WORDS..
    [ -n "$has_output" ] || give_up "standard output is closed"
    case ${1-} in
    -h | --help)
        usage || give_up "the output could not be written"
        exit
        ;;
    --) shift ;;
    -?*)
        say "there is no option $1 (a file of that name is ./$1)"
        usage >&2
        exit 2
        ;;
    esac
    [ $# -le 1 ] || { usage >&2; exit 2; }

    # the standard input is used where it stands; a file is opened once, since it may be a pipe
    from=${1--}
    if [ "$from" = - ]; then
        from="the standard input"
        [ -n "$has_input" ] || give_up "standard input is closed"
    elif ! { exec <"$from"; } 2>/dev/null; then
        why=$({ : <"$from"; } 2>&1)
        give_up "can't read $from: ${why##*: }"
    fi
}

# Brings its standard input to the standard output, or says why that can't be.
put_out() {
    { why=$(cat 2>&1 >&3) || give_up "the output could not be written${why:+: ${why##*: }}"; } 3>&1
}

# All that a script does which has PROGRAM print the one input that WORDS name (see take_input): it prints and exits. WHOLE is a pattern for what PROGRAM
# prints where all went well, a WHAT.
print_input() { # PROGRAM WHAT WHOLE WORDS..
    program=$1 what=$2 whole=$3
    shift 3
    take_input "$@"
    find_kit
    build program "$program" || exit
    # a program in Rattle has no exit status: what it printed tells how it went, and it has said itself what could not be read
    text=$(run_program "$root/target/bin/$program") && ended=0 || ended=$?
    # shellcheck disable=SC2254
    case $ended:$text in
    0:$whole) status=0 ;;
    0:"refused "*) status=1 ;;
    *) give_up "no $what was printed, from $from" ;;
    esac
    put_out <<END
$text
END
    exit "$status"
}

# The same where PROGRAM writes a WHAT in bytes, LEAST of them at least, which never begins as a refusal does. Of a refusal standard error gets a sentence
# too, since the output may go to another program: the script has a function `why_refused`, which is handed the refusal's words.
write_input() { # PROGRAM WHAT LEAST WORDS..
    program=$1 what=$2 least=$3
    shift 3
    take_input "$@"
    find_kit
    build program "$program" || exit
    made=$(mktemp -d) || give_up "can't make a temporary folder"
    trap 'rm -rf "$made"' EXIT
    # bytes have no end that one could look for: where the program has said anything, they are not whole
    run_program "$root/target/bin/$program" >"$made/out" 2>"$made/said" && ended=0 || ended=$?
    cat "$made/said" >&2
    if [ "$ended" -ne 0 ] || [ -s "$made/said" ] || [ "$(wc -c <"$made/out")" -lt "$least" ]; then
        give_up "no $what was written, from $from"
    fi
    refused=
    ! printf 'refused ' | cmp -s -n 8 - "$made/out" || refused=$(cat "$made/out")
    put_out <"$made/out"
    [ -n "$refused" ] || exit 0
    # shellcheck disable=SC2086
    say "no $what: $(why_refused ${refused#refused }) ($(echo "$refused" | cut -d ' ' -f 1,2))"
    exit 1
}

# The crates that NAME is made of, each behind those that it stands on.
crates_of() { # NAME
    awk -v wanted="$1" '
        function visit(name,    part, count, i) {
            if (!(name in below) || seen[name]++) return
            count = split(below[name], part, " ")
            for (i = 1; i <= count; i++) visit(part[i])
            print name
        }
        { sub(/#.*/, "") }
        split($0, half, ":") == 2 { split(half[1], word, " "); below[word[1]] = half[2] }
        END { visit(wanted) }' crates.txt
}

# One word for all that NAME is made of.
sum_of() { # NAME
    {
        rt version </dev/null
        cat crates.txt
        for crate in $(crates_of "$1"); do find "crates/$crate" \( -name must-fail -o -name out \) -prune -o -type f -print; done |
            LC_ALL=C sort | tr '\n' '\0' | xargs -0 sha256sum
    } | sha256sum | cut -d ' ' -f 1
}

# Reads what a build says: keeps it in LOG, and tells of each crate once it is proved. Gives the status that the last line has.
tell_progress() { # COUNT LOG
    left=$1 ended=2
    while IFS= read -r line; do
        printf '%s\n' "$line" >>"$2"
        case $line in
        'build ended '*) ended=${line#build ended } ;;
        'build proved '*)
            left=$((left - 1))
            say "proved: ${line#build proved }, $left of $1 left"
            ;;
        esac
    done
    return "$ended"
}

# Makes target/bin/NAME or target/staticlib/libNAME.a, unless it is there and made of just what the crates hold now. The crate NAME_c makes the library: a
# crate that others stand on can't. rt is called in the folder of each crate, of those first that others stand on, and is quick where nothing changed. In a
# subshell: its folder and its lock end with it.
build() ( # program|library NAME
    name=$2
    cd "$root" || give_up "can't go to $root"
    case $1 in
    program) top=$name made=crates/$name/out/$name product=target/bin/$name ;;
    library) top=${name}_c made=crates/${name}_c/out/lib${name}_c.a product=target/staticlib/lib$name.a ;;
    esac
    sum=$(sum_of "$top")
    is_made() {
        [ -e "$product" ] && [ -e "$product.sum" ] && [ ! "$product" -nt "$product.sum" ] && [ "$(cat "$product.sum")" = "$sum" ]
    }
    ! is_made || exit 0
    { mkdir -p target/log "$(dirname "$product")" && : >>target/build.lock; } 2>/dev/null || give_up "can't write to $root/target"
    exec 9>target/build.lock
    if command -v flock >/dev/null 2>&1 && ! flock -n 9; then
        say "another build is under way; waiting for its end"
        flock 9
        ! is_made || exit 0
    fi

    crates=$(crates_of "$top") log=target/log/build-$name.txt
    count=$(echo "$crates" | wc -w)
    say "building $name, which proves the crates that it is made of: from nothing that takes some minutes"
    # shellcheck disable=SC2086
    say "to be proved:" $crates
    : >"$log"
    proving() {
        rm -f "$made"
        for crate in $crates; do
            began=$(date +%s)
            if [ "$crate:$made" != "$name:crates/$name/out/$name" ]; then
                (cd "crates/$crate" && rt lib) || return
            else
                # rt builds a program only to run it, and gives its status: here, on no input, that is no matter
                (cd "crates/$crate" && rt run) || [ -e "$made" ] || return
            fi
            echo "build proved $crate ($(($(date +%s) - began)) s)"
        done
    }
    { proving && echo "build ended 0" || echo "build ended 1"; } 2>&1 </dev/null | tell_progress "$count" "$log" || {
        grep -Ev '^(statements|library|logic|axioms) |^(so far:|fn [^ ]*: proved)' "$log" | tail -n 20 >&2
        give_up "$name could not be built; the end of what rt said stands above, all of it in $root/$log"
    }
    [ -e "$made" ] || give_up "rt left no $made: remove $root/crates/$top/out and call again"
    # in two steps, since the old one may be running
    cp "$made" "$product.new" && mv "$product.new" "$product" || give_up "can't write to $root/target"
    echo "$sum" >"$product.sum"
)
