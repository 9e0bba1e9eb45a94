# Sourced by harness/run.sh and examples/run.sh, which set `root` and `me` and have sourced bin/kit.sh. It builds the library where it has to be
# built, and makes compilers, linker and emulator ready: a program is for x86-64, native there and emulated on Arm. (Today's kit has nothing for Arm, so
# that find_kit ends the script there; what is done for Arm below was run with an earlier kit.)
# Exit status 77: the compiler that this machine lacks cannot be had; nothing was compared.
here=$root/harness target=x86_64-unknown-linux-gnu archive=$root/target/staticlib/libstation.a
find_kit
build library station || exit
cd "$here"
export CARGO_HOME="$here/target/home" # cargo's locks and notes stay here too
if [ "$(uname -m)" != x86_64 ]; then
    cross=$here/.cross lib=$libraries w=${RUST_DEB--web}
    if [ ! -e "$cross/rust/done" ]; then # Debian's compiler, with the libraries for both processors: unpacked, not installed
        say "fetching Debian's Rust compiler for x86-64, some 120 MB, into $cross; nothing is installed"
        rm -rf "$cross/rust" "$cross/deb" && mkdir -p "$cross/rust" "$cross/deb" "$cross/lib"
        needs() { apt-cache depends "$1" | sed -n "s/^ *Depends: \($2[0-9.]*\)\$/\1/p"; }
        std=$(needs libstd-rust$w-dev libstd-rust$w-)
        (cd "$cross/deb" && apt-get -qq -o APT::Sandbox::User=root download \
            rustc$w $std libstd-rust$w-dev libstd-rust$w-dev:amd64 $(needs $std libllvm)) ||
            { say "no compiler could be fetched; as root, once: dpkg --add-architecture amd64 && apt-get update" && exit 77; }
        for deb in "$cross"/deb/*.deb; do dpkg -x "$deb" "$cross/rust"; done
        rm -r "$cross/deb" && : >"$cross/rust/done"
    fi
    # the kit's C library under the names that a linker looks for; what glibc 2.34 merged into libc is empty
    for l in util rt pthread dl; do printf '!<arch>\n' >"$cross/lib/lib$l.a"; done
    ln -sf "$lib/libm.so.6" "$cross/lib/libm.so" && ln -sf "$lib/libgcc_s.so.1" "$cross/lib/libgcc_s.so"
    echo "GROUP ( $lib/libc.so.6 $lib/libc_nonshared.a AS_NEEDED ( $lib/ld-linux-x86-64.so.2 ) )" >"$cross/lib/libc.so"
    # the emulator dies where a program opens /proc/self/maps, as Rust's start does through this function: let it fail
    echo 'int pthread_getattr_np(void) { return 38; }' | "$tools/clang" --target=$target -O2 -fPIC -x c -c - -o "$cross/maps.o"
    printf '#!/bin/sh\nexec "%s/clang" --target=%s -fuse-ld=lld "-B%s" "-B%s" "-L%s" "-L%s" "$@"\n' \
        "$tools" $target "$tools" "$lib" "$cross/lib" "$lib" >"$cross/x86-cc"
    # rustc tells by the name how to call the linker: it has to end in -clang
    printf '#!/bin/sh\nexec "%s/x86-cc" "$@" "%s"\n' "$cross" "$cross/maps.o" >"$cross/x86-clang"
    printf '#!/bin/sh\nLD_LIBRARY_PATH=%s exec %s "$@"\n' "$(echo "$cross"/rust/usr/lib/*-linux-gnu)" "$cross/rust/usr/bin/rustc" >"$cross/rustc"
    chmod +x "$cross/x86-cc" "$cross/x86-clang" "$cross/rustc"
    export RUSTC="$cross/rustc" CARGO_TARGET_X86_64_UNKNOWN_LINUX_GNU_LINKER="$cross/x86-clang"
    export CARGO_TARGET_X86_64_UNKNOWN_LINUX_GNU_RUNNER="$tools/qemu-x86_64 $lib/ld-linux-x86-64.so.2 --library-path $lib"
    unset RUST_BACKTRACE || : # a backtrace opens the same file
fi

# The headers of the C library and of the system for x86-64, unpacked and not installed; gives 77 where there is no compiler or they cannot be fetched.
ready_for_c() {
    cc --version >/dev/null 2>&1 || { say "there is no C compiler (cc)" && return 77; }
    [ "$(uname -m)" != x86_64 ] && [ ! -e "$cross/c/usr/include/linux/errno.h" ] || return 0
    say "fetching C headers for x86-64 from Debian (libc6-dev, linux-libc-dev) into $cross; nothing is installed"
    rm -rf "$cross/c" && mkdir -p "$cross/c" &&
        (cd "$cross/c" && apt-get -qq -o APT::Sandbox::User=root download libc6-dev:amd64 linux-libc-dev:amd64 &&
            dpkg -x libc6-dev_*.deb . && dpkg -x linux-libc-dev_*.deb . && rm ./*.deb) ||
        { say "no C headers could be fetched; as root, once: dpkg --add-architecture amd64 && apt-get update" && return 77; }
}

# The kit's clang comes without headers of its own: cc's have stddef.h and its like. WORDS are those of any C compiler.
kit_clang() { # WORDS..
    [ "$(uname -m)" != x86_64 ] || { "$tools/clang" -isystem "$(cc -print-file-name=include)" "$@"; return; }
    "$cross/x86-cc" -Wno-unused-command-line-argument -nostdlibinc -isystem "$(cc -print-file-name=include)" \
        -isystem "$cross/c/usr/include" -isystem "$cross/c/usr/include/x86_64-linux-gnu" "$@"
}
compile_c() { if [ "$(uname -m)" = x86_64 ]; then cc "$@"; else kit_clang "$@"; fi; }
compile_rust() { # WORDS..: one file by plain rustc, without cargo
    set -- --edition 2021 -L "native=$(dirname "$archive")" "$@"
    if [ "$(uname -m)" = x86_64 ]; then rustc "$@"; else "$RUSTC" --target $target -C "linker=$cross/x86-clang" "$@"; fi
}
