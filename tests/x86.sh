# Sourced by the scripts that build and run what Rattle compiles, which is for x86-64. `compile` is a C compiler for it; `emulate` runs a
# static program; `built` runs a program of target/bin, which is linked with the kit's C library and so is started by the kit's loader.
# `archive` proves and builds the exported library with the twins of its calls, unless what is there is newer than the crates, native/
# and the header, `programs` does the same for the printing programs, and `shared` links the shared object from the library. `sources` prints a
# sum over all that is proved, `version` the library's version as the header has it. The kit is for x86-64 alone. On another processor what is
# delivered for x86-64 is linked by Debian's cross compiler, installed at its first use where it is missing, and run by QEMU.
kit=$(dirname "$(dirname "$(readlink -f "$(command -v rt)")")")
toolchain=$kit/toolchain
if [ "$(uname -m)" = x86_64 ]; then
    compile() { gcc "$@"; }
    emulate() { "$@"; }
else
    compile() {
        if ! command -v x86_64-linux-gnu-gcc >/dev/null; then
            apt-get update >/dev/null && apt-get install -y --no-install-recommends gcc-x86-64-linux-gnu libc6-dev-amd64-cross >/dev/null
        fi
        x86_64-linux-gnu-gcc "$@"
    }
    emulate() { qemu-x86_64 "$@"; }
fi
built() { emulate "$toolchain/lib/ld-linux-x86-64.so.2" --library-path "$toolchain/lib" "$@"; }
# machine: the name that delivered/ has for this machine's processor, or nothing.
machine() {
    case $(uname -s)/$(uname -m) in
    Linux/x86_64) echo x86-64 ;;
    Linux/aarch64 | Linux/arm64) echo aarch64 ;;
    esac
}
# The builds that run here: that for x86-64, emulated where need be, and the machine's own. `compile_for BUILD ARGUMENT..` is a C compiler for
# one of them, `run_for BUILD PROGRAM..` runs a static program.
runnable() { printf '%s\n' x86-64 "$(machine)" | sort -ru | grep .; }
compile_for() { if [ "$1" = x86-64 ]; then compile "${@:2}"; else gcc "${@:2}"; fi; }
run_for() { if [ "$1" = x86-64 ]; then emulate "${@:2}"; else "${@:2}"; fi; }
library=target/staticlib/libguvrendik
# newer FILE: whether a file of the crates is newer than it, or it is not there. What rt makes in crates/*/out is none of them.
newer() { [ ! -e "$1" ] || [ -n "$(find crates crates.txt -path 'crates/*/out' -prune -o -newer "$1" -print -quit)" ]; }
archive() {
    local portal=target/staticlib/libportal_c.a
    if newer $portal || [ ! -e target/staticlib/portal_c.bc ]; then
        libraries && staticlib || return
    fi
    if [ ! -e $library.a ] || [ -n "$(find $portal native include -newer $library.a -print -quit)" ]; then with_twins; fi
}
# The printing programs, in target/bin: those that `rt ci` left in the crates' out/, or that rt proves and builds here. `printer NAME` is one of them.
programs() { printer verdict && printer plan_verdict && printer json_verdict; }
printer() {
    local there=crates/$1/out/$1
    if newer "target/bin/$1"; then
        if [ ! -e "$there" ] || { ! proved && newer "$there"; }; then rt_in "$1" run || return; fi
        mkdir -p target/bin && cp "$there" target/bin && touch "target/bin/$1"
    fi
}
# proved: whether ./test noted that `rt ci` passed on these very sources; what it left in the crates' out/ may be older than they are, where it was kept.
proved() { [ "$(cat target/proved 2>/dev/null)" = "$(sources)" ]; }
# rt_in CRATE COMMAND: rt's command in the crate's folder. What a program prints there is not shown: rt's own lines come on standard error.
rt_in() { (cd "crates/$1" && rt "$2" </dev/null >/dev/null); }
# below CRATE: the crates that it stands on, by crates.txt.
below() {
    awk -v crate="$1" '
        /^[a-z]/ { name = $1; sub(":", "", name); deps = $0; sub("^[^:]*:", "", deps); uses[name] = deps }
        function visit(name, list, n, i) {
            if (!(name in uses) || seen[name]++) return
            n = split(uses[name], list, " ")
            for (i = 1; i <= n; i++) visit(list[i])
            print name
        }
        END { visit(crate) }' crates.txt | grep -vx "$1"
}
# libraries: the proved libraries below portal_c stand in the crates' out/. `rt ci` leaves them there, without a stamp, and ./test notes of which
# sources it proved them; else rt proves and builds what has changed.
libraries() {
    local name
    if proved; then
        for name in $(below portal_c); do
            if [ ! -e "crates/$name/out/rlib/$name.rlib/format" ] || [ -e "crates/$name/out/rlib/stamp" ]; then break; fi
            name=
        done
        if [ -z "$name" ]; then return; fi
    fi
    rt_in portal_c check
}
# Each exported call is one function, all that it calls put in line: what passes by value between its parts is then one copy and not one to
# each part. A copy that is only read is left out where the compiler sees that nothing writes to what it is of; in so long a function it looks
# past its usual 100 writes for that, and so for what is written and never read. Jumps are not led past tests, which would copy code and what it
# holds on the stack. Of the ways that were tried this takes the least stack.
inlined='-mllvm -inline-threshold=100000 -mllvm -memssa-check-limit=10000 -mllvm -dse-memoryssa-scanlimit=100000 -mllvm -dse-memoryssa-walklimit=100000 -mllvm -jump-threading-threshold=0'
# staticlib: proves the crate portal_c over those libraries, and builds it as `rt lib` does, by a folder of links to the kit's toolchain with a
# clang before the real one. It keeps the module that the kit hands to its clang, of which the builds for other processors are made (native/build.sh).
staticlib() {
    local at=$PWD/target/staticlib name words=()
    rm -rf "$at/toolchain" && mkdir -p "$at/toolchain/bin" &&
        find "$toolchain" -mindepth 1 -maxdepth 1 ! -name bin -exec ln -s -t "$at/toolchain" {} + &&
        find "$toolchain/bin" -mindepth 1 ! -name clang -exec ln -s -t "$at/toolchain/bin" {} + || return
    cat >"$at/toolchain/bin/clang" <<END
#!/bin/sh
for word in "\$@"; do case \$word in *.bc) cp "\$word" '$at/portal_c.bc' ;; esac; done
exec '$toolchain/bin/clang' "\$@" $inlined
END
    chmod +x "$at/toolchain/bin/clang" || return
    for name in std $(awk -F : '/^portal_c / { print $2 }' crates.txt); do
        if [ -e "crates/$name" ]; then words+=(--extern "$name=../$name/out/rlib/$name.rlib"); else words+=(--extern "$name=$kit/rlibs/$name.rlib"); fi
    done
    for name in $(below portal_c); do words+=(-L "dependency=../$name/out/rlib"); done
    (cd crates/portal_c && "$kit/bin/rattle" build --crate-name portal_c src/lib.rt "${words[@]}" -L "dependency=$kit/rlibs" \
        --antt-project "$kit/rattle/logic/antt-project.json" --logic-built "$kit/logic_built" --incremental out/incremental --jobs 2 --links portal_c= \
        --crate-type staticlib --backend llvm --toolchain "$at/toolchain" -o "$at/libportal_c.a") && rm -rf "$at/toolchain"
}
# The archive of the crate portal_c, and the twins of its calls with it. By the kit's own compiler and linker, here and below, which are the same
# on every processor: the bytes do not depend on the machine.
with_twins() {
    "$toolchain/bin/clang" --target=x86_64-unknown-linux-gnu -std=c11 -O2 -fPIC -ffunction-sections -ffreestanding -nostdinc \
        -isystem native/freestanding -Iinclude -Wall -Wextra -Werror -c native/calls.c -o target/staticlib/calls.o &&
        cp target/staticlib/libportal_c.a $library.a && "$toolchain/bin/llvm-ar" rcsD $library.a target/staticlib/calls.o
}
shared() {
    local name
    name=libguvrendik.so.$(version | cut -d . -f 1)
    "$toolchain/bin/ld.lld" -m elf_x86_64 -shared -soname "$name" --version-script packaging/guvrendik.map -z defs -z relro -z now \
        -z noexecstack -Bsymbolic-functions --hash-style=gnu --whole-archive $library.a --no-whole-archive "$toolchain/lib/libc.so.6" \
        -o "target/staticlib/$name" && ln -sf "$name" $library.so
}
sources() {
    find crates.txt crates/*/src crates/*/specs crates/*/proofs -type f -print0 | LC_ALL=C sort -z | xargs -0 sha256sum | sha256sum |
        cut -d ' ' -f 1
}
version() {
    sed -nE 's/^#define GUVRENDIK_VERSION_(MAJOR|MINOR|PATCH) ([0-9]+)$/\2/p' include/guvrendik.h | paste -sd .
}
