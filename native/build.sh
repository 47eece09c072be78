# Sourced after tests/x86.sh: the builds for the processors that the kit does not compile for, each from the one module of the proved library, and the
# programs of native/. All by the kit's own compiler and linker: the bytes are the same wherever they are made. `builds` makes all of them
# in target/x86-64, target/aarch64 and target/wasm32, as they are delivered.
clang=$toolchain/bin/clang
arm=aarch64-unknown-linux-gnu
# What the kit hands to its clang for every processor, so that it compiles no proved code wrongly, and for AArch64 alone.
careful='-ffunction-sections -fdata-sections -mllvm -trap-unreachable -mllvm -no-x86-call-frame-opt -mllvm -disable-machine-licm
    -mllvm -disable-postra-machine-licm -mllvm -sink-common-insts=false'
careful_arm='-march=armv8-a -mllvm -no-trap-after-noreturn -mllvm -aarch64-load-store-renaming=false'

# c TARGET SOURCE OUT FLAG..: an object of C, without a C library's headers.
c() {
    local target=$1 source=$2 out=$3
    shift 3
    "$clang" --target="$target" -std=c11 -O2 -ffunction-sections -ffreestanding -nostdinc -isystem native/freestanding -Iinclude -Inative \
        -Wall -Wextra -Werror "$@" -c "$source" -o "$out"
}

# program TARGET EMULATION ARCHIVE OUT SOURCE FLAG..: a program of native/ over the library, without a C library.
program() {
    local target=$1 emulation=$2 archive=$3 out=$4 source=$5
    shift 5
    c "$target" "$source" target/program.o "$@" &&
        "$toolchain/bin/ld.lld" -m "$emulation" -static --gc-sections --build-id=none -z noexecstack target/program.o "$archive" -o "$out"
}

# The module as text, and what C must add to it: native/translate.py.
plain() {
    local at=target/plain
    rm -rf $at && mkdir -p $at &&
        "$clang" --target=x86_64-unknown-linux-gnu -S -emit-llvm -O0 -Xclang -disable-llvm-passes -x ir target/staticlib/portal_c.bc -o $at/x86-64.ll &&
        python3 -B native/translate.py include/guvrendik.h $at/x86-64.ll $at
}

for_x86() {
    local at=target/x86-64 name
    rm -rf $at && mkdir -p $at && cp $library.a "$library.so.$(version | cut -d . -f 1)" $at || return
    for name in verdict plan_verdict json_verdict; do cp "target/bin/$name" $at || return; done
    program x86_64-unknown-linux-gnu elf_x86_64 $library.a $at/table_verdict native/table.c &&
        program x86_64-unknown-linux-gnu elf_x86_64 $library.a $at/explain native/explain.c
}

for_arm() {
    local at=target/aarch64 name
    name=libguvrendik.so.$(version | cut -d . -f 1)
    rm -rf $at && mkdir -p $at &&
        "$clang" --target=$arm -Wno-override-module $careful $careful_arm -fPIC -O3 $inlined -c -x ir target/plain/module.ll -o target/plain/module.o &&
        c $arm target/plain/values.c target/plain/values.o -fPIC && c $arm native/calls.c target/plain/calls.o -fPIC &&
        c $arm native/memory.c target/plain/memory.o -fPIC &&
        "$toolchain/bin/llvm-ar" rcsD $at/libguvrendik.a target/plain/module.o target/plain/values.o target/plain/calls.o &&
        "$toolchain/bin/ld.lld" -m aarch64elf -shared -soname libc.so.6 target/plain/memory.o -o target/plain/libc.so.6 &&
        "$toolchain/bin/ld.lld" -m aarch64elf -shared -soname "$name" --version-script packaging/guvrendik.map -z defs -z relro -z now \
            -z noexecstack -Bsymbolic-functions --hash-style=gnu --whole-archive $at/libguvrendik.a --no-whole-archive target/plain/libc.so.6 \
            -o "$at/$name" &&
        program $arm aarch64elf $at/libguvrendik.a $at/verdict native/print.c -DPRINTS=VERDICT &&
        program $arm aarch64elf $at/libguvrendik.a $at/plan_verdict native/print.c -DPRINTS=PLAN &&
        program $arm aarch64elf $at/libguvrendik.a $at/json_verdict native/print.c -DPRINTS=JSON &&
        program $arm aarch64elf $at/libguvrendik.a $at/table_verdict native/table.c &&
        program $arm aarch64elf $at/libguvrendik.a $at/explain native/explain.c
}

# Without a machine's memory calls and stack probes; the stack holds every call, and what a caller puts stands behind it.
for_wasm() {
    local at=target/wasm32 target=wasm32-unknown-unknown
    rm -rf $at && mkdir -p $at && ln -sf "$toolchain/bin/ld.lld" target/plain/wasm-ld &&
        sed 's/"probe-stack"="inline-asm"//' target/plain/module.ll >target/plain/wasm.ll &&
        "$clang" --target=$target -Wno-override-module -mbulk-memory $careful -O3 -c -x ir target/plain/wasm.ll -o target/plain/wasm.o &&
        c $target target/plain/places.c target/plain/places.o -mbulk-memory &&
        target/plain/wasm-ld --no-entry --strip-all --export=__heap_base -z stack-size=262144 --initial-memory=1048576 \
            target/plain/wasm.o target/plain/places.o -o $at/guvrendik.wasm
}

# Not anew where all that they are made of is older.
builds() {
    local made=target/wasm32/guvrendik.wasm
    programs || return
    if [ ! -e $made ] || [ -n "$(find $library.a target/staticlib/portal_c.bc target/bin/*verdict native include packaging -newer $made -print -quit)" ]; then
        plain && for_x86 && for_arm && for_wasm
    fi
}
