# For a script that stands at the repository's root: how a C program is built over the library for C and started.
# The library is for x86-64. On another processor the program is compiled for x86-64 too, over the C library of the Rattle kit, and
# started under the emulator qemu-x86_64: with no address sanitizer there, and a time measured there says nothing of a real x86-64.

native() { [ "$(uname -m)" = x86_64 ]; }

tools=$(dirname "$(dirname "$(readlink -f "$(command -v rt)")")")/toolchain

# programs NAME..: target/bin/NAME, proved anew where something has changed; what is said of it is shown only where it fails.
programs() {
    mkdir -p target/c
    tools/made "$@" > target/c/made.log 2>&1 || {
        cat target/c/made.log
        return 1
    }
}

# The library, target/staticlib/libdesk_c.a, in the same way.
library() { programs library; }

# On another processor: the library compiled for this one, target/c/desk_c.a, from the same proved code, for a benchmark whose times are to
# mean something.
here_library() {
    mkdir -p target/c
    (cd crates/desk_c && rt lib --target "$(uname -m)-unknown-linux-gnu") > target/c/library.log 2>&1 || {
        cat target/c/library.log
        return 1
    }
    mv crates/desk_c/out/libdesk_c.a target/c/desk_c.a
}

# build PROGRAM FLAG-OR-SOURCE..: links the library in
build() {
    program=$1
    shift
    if native; then
        gcc -std=c11 -Wall -Wextra -Wpedantic -Werror "$@" target/staticlib/libdesk_c.a -pthread -o "$program"
    else
        clang --target=x86_64-linux-gnu -idirafter "/usr/include/$(gcc -print-multiarch)" -std=c11 -Wall -Wextra -Wpedantic -Werror "$@" \
            --ld-path="$tools/bin/ld.lld" -fPIE -pie -nostdlib "$tools/lib/Scrt1.o" "$tools/lib/crti.o" "$tools/lib/crtbeginS.o" \
            target/staticlib/libdesk_c.a "$tools/lib/libc.so.6" "$tools/lib/libc_nonshared.a" "$tools/lib/libgcc.a" \
            "$tools/lib/crtendS.o" "$tools/lib/crtn.o" -o "$program"
    fi
}

# start PROGRAM ARGUMENT..
start() {
    if native; then
        "$@"
    else
        qemu-x86_64 "$tools/lib/ld-linux-x86-64.so.2" --library-path "$tools/lib" "$@"
    fi
}

# the sanitizers that a program can be built with here
if native; then
    sanitize='-fsanitize=address,undefined -fno-sanitize-recover=all'
else
    sanitize='-fsanitize=undefined -fsanitize-trap=all'
fi
