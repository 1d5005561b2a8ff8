# shellcheck shell=sh
# shellcheck disable=SC2034  # what is set here is read by the scripts that read this file
# The targets of the library: tools/library compiles it for each, tools/try-library runs it on each, examples/bare on two of them.

targets='x86_64-linux aarch64-linux aarch64-none riscv64 riscv32 armv7-a cortex-r5f cortex-m7 wasm'

# about_target TARGET sets
#   for_what     in words
#   target_words what clang is told of the target, and nothing else
#   own_memory   yes, if the library brings memset and memcpy along, as weak symbols
#   rust_name    Rust's name for the target
# A target without a system may have its memory without an MMU, where an access that is not aligned is a fault, and its vector or floating
# registers off or not saved by interrupts: code for it keeps to aligned accesses and to the general registers. The calls pass no floating
# numbers; the ABI is the one that the target's other code is usually built with, since linkers refuse to mix them.
about_target() {
    own_memory=yes
    case $1 in
    x86_64-linux)
        for_what='x86-64 Linux; the same code as rt lib makes'
        target_words='--target=x86_64-unknown-linux-gnu -march=x86-64'
        own_memory='' rust_name=x86_64-unknown-linux-gnu
        ;;
    aarch64-linux)
        for_what='64-bit Arm, Linux: Armv8-A'
        target_words='--target=aarch64-unknown-linux-gnu -march=armv8-a'
        own_memory='' rust_name=aarch64-unknown-linux-gnu
        ;;
    aarch64-none)
        for_what='64-bit Arm without a system: Armv8-A, aligned accesses, general registers alone'
        target_words='--target=aarch64-none-elf -march=armv8-a -mstrict-align -mgeneral-regs-only'
        rust_name=aarch64-unknown-none
        ;;
    riscv64)
        for_what='64-bit RISC-V, with a system or without: RV64GC, ABI lp64d'
        target_words='--target=riscv64-unknown-elf -march=rv64gc -mabi=lp64d'
        rust_name=riscv64gc-unknown-none-elf
        ;;
    riscv32)
        for_what='32-bit RISC-V without a system: RV32IMAC, ABI ilp32'
        target_words='--target=riscv32-unknown-elf -march=rv32imac -mabi=ilp32'
        rust_name=riscv32imac-unknown-none-elf
        ;;
    # -meabi gnu: memset and memcpy by these names, and not __aeabi_memset and the like
    armv7-a)
        for_what='32-bit Arm, with a system or without: Armv7-A, A32, EABI with floating registers, no NEON, aligned accesses'
        target_words='--target=armv7a-none-eabihf -mfpu=vfpv3-d16 -mno-unaligned-access -meabi gnu'
        rust_name=armv7a-none-eabihf
        ;;
    cortex-r5f)
        for_what='Cortex-R5F without a system: Armv7-R, Thumb, EABI with floating registers, aligned accesses'
        target_words='--target=armv7r-none-eabihf -mthumb -mcpu=cortex-r5 -mfpu=vfpv3-d16 -mno-unaligned-access -meabi gnu'
        rust_name=armv7r-none-eabihf
        ;;
    cortex-m7)
        for_what='Cortex-M7 without a system: Armv7E-M, Thumb, EABI with floating registers, aligned accesses'
        target_words='--target=thumbv7em-none-eabihf -mcpu=cortex-m7 -mno-unaligned-access -meabi gnu'
        rust_name=thumbv7em-none-eabihf
        ;;
    wasm)
        for_what='WebAssembly, 32-bit, for browsers and Node'
        target_words='--target=wasm32-unknown-unknown'
        rust_name=wasm32-unknown-unknown
        ;;
    *) return 1 ;;
    esac
}

# The words of a call, checked: sets `chosen`. Takes names of targets, or --all.
choose_targets() {
    chosen=''
    for word; do
        case $word in
        --all) chosen=$targets ;;
        -*) wrong_call "there is no option $word" ;;
        *)
            about_target "$word" || wrong_call "there is no target '$word'; there are: $targets"
            case " $chosen " in *" $word "*) ;; *) chosen="$chosen${chosen:+ }$word" ;; esac
            ;;
        esac
    done
    [ -n "$chosen" ] || wrong_call "no target is named"
}

list_targets() {
    for target in $targets; do
        about_target "$target"
        printf '  %-14s %s\n' "$target" "$for_what"
    done
}

# Sets `kit`, the toolchain's own folder, from where rt is, and `clang`, the one compiler in it; and `kit_tools`, a folder where that one
# program stands by the names by which it is the other tools.
want_kit() {
    machine=$(uname -m)
    rt=$(command -v rt) || {
        lack "there is no 'rt' on the PATH: the Rattle toolchain is needed, and nothing else"
        return
    }
    while [ -L "$rt" ]; do
        at=$(readlink "$rt")
        case $at in /*) rt=$at ;; *) rt=$(dirname "$rt")/$at ;; esac
    done
    kit=$(cd "$(dirname "$rt")/.." && pwd -P)
    clang=$kit/toolchain/bin/clang
    if [ ! -x "$clang" ]; then
        lack "the toolchain's clang was expected at $clang, and is not there; there is: $(cd "$kit" 2>/dev/null && find . -name 'clang*' 2>/dev/null | head -n 3 | tr '\n' ' ')"
        return
    fi
    kit_tools=target/library/bin
    mkdir -p $kit_tools
    for tool in llvm-ar llvm-nm llvm-size ld.lld; do
        ln -sf "$clang" "$kit_tools/$tool"
        said=$("$kit_tools/$tool" --version 2>&1 | head -n 3 | tr '\n' ' ') || said="$said (status $?)"
        case $said in
        *LLVM* | *LLD*) ;;
        *) lack "the toolchain's clang was expected to be $tool too, called by that name; it says: $said" ;;
        esac
    done
}

# How clang is told to compile C for a target without a C library, as the toolchain's own words have it.
freestanding='--no-default-config -no-canonical-prefixes -fintegrated-cc1 -fno-crash-diagnostics -std=c11 -Wall -Wextra -Werror -ffreestanding -fno-builtin -nostdlibinc -Iinclude/plain -Iinclude'
