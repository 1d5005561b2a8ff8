# shellcheck shell=sh
# What tools/compare, tools/sample, tools/library, tools/try-library, the scripts of bench/ and the examples' scripts share. Each sets
# `script`, the name that a reader calls it by, reads this file, and stands at the root of the repository when it calls what is below.

# ---- what is said: on standard error, a sentence each

say() { printf '%s: %s\n' "$script" "$*" >&2; }

wrong_call() {
    say "$* (see $script --help)"
    exit 2
}

missing() {
    say "$*"
    exit 2
}

# Between these two all that is needed is looked for, so that all that is missing is named at once, and before any work starts.
start_looking() {
    lacking='' scratch=target/tools/looking.$$
    mkdir -p "$scratch" 2>/dev/null || missing "the folder $PWD/target cannot be made or written to, and all that is built goes there: make it writable"
}
stop_if_lacking() {
    rm -rf "$scratch"
    [ -z "$lacking" ] || exit 2
}

lack() {
    say "$*"
    lacking=yes
}

# The first lines of a file, to follow a sentence.
quote() { sed -e 's/^/    /' -e 8q "$1" >&2; }

# What is done now: a line that the next one replaces on a terminal, and nothing elsewhere.
doing() { [ ! -t 2 ] || printf '\r%-78.78s' "$script: $*" >&2; }
done_with_it() { [ ! -t 2 ] || printf '\r%78s\r' '' >&2; }

# ---- words

help_asked() {
    for word; do
        case $word in -h | --help) return 0 ;; esac
    done
    return 1
}

explain_environment() {
    cat <<'END'
Set by the environment:
  CC         the C compiler (gcc; on a machine that is no x86-64, x86_64-linux-gnu-gcc)
  CFLAGS     more words for it
  RUN        what runs an x86-64 program (nothing; on a machine that is no x86-64,
             qemu-x86_64)
END
}

# A path that a reader gave, whatever folder the script goes to.
from_here() { case $1 in /*) printf '%s\n' "$1" ;; *) printf '%s\n' "$PWD/$1" ;; esac; }

# A folder to write to.
want_folder() {
    if { mkdir -p -- "$1" && : >"$1/written.$$"; } 2>/dev/null; then
        rm -f "$1/written.$$"
    else
        lack "the folder $1 cannot be made or written to: $2"
    fi
}

# ---- the compiler of x86-64 programs, and what runs them

# Sets `cc`, `link`, the words by which a program is linked, and `run`, the words that run it; and tries them on a small program. Words
# given are for linking.
want_compiler() {
    link=$* machine=$(uname -m)
    case $machine in
    x86_64) cc=${CC:-gcc} compiler_package=gcc library_package=libc6-dev ;;
    *) cc=${CC:-x86_64-linux-gnu-gcc} compiler_package=gcc-x86-64-linux-gnu library_package=libc6-dev-amd64-cross link=-static ;;
    esac
    want_runner
    if ! command -v "${cc%% *}" >/dev/null 2>&1; then
        lack "there is no C compiler ${cc%% *}: install the Debian packages $compiler_package and $library_package, or name a compiler by CC"
        return
    fi
    # shellcheck disable=SC2086
    made_for=$($cc ${CFLAGS:-} -dumpmachine 2>/dev/null) || made_for=''
    case $made_for in
    '' | x86_64*) ;;
    *)
        lack "$cc compiles for $made_for, and the library is for x86-64: name a compiler for x86-64 by CC, as x86_64-linux-gnu-gcc of the Debian package gcc-x86-64-linux-gnu"
        return
        ;;
    esac
    small=$scratch/small
    printf '%s\n' '#include <stdio.h>' 'int main(void) { return puts("it runs") < 0; }' >"$small.c"
    # shellcheck disable=SC2086
    if ! $cc $link ${CFLAGS:-} "$small.c" -o "$small" >"$small.said" 2>&1; then
        lack "$cc${link:+ $link} does not compile a small program: install the Debian package $library_package, or mend CC and CFLAGS. It says:"
        quote "$small.said"
    elif [ -n "$runs" ] && [ "$($run "$small" 2>"$small.said")" != 'it runs' ]; then
        lack "what $cc builds does not run here${run:+ by $run}: name what runs x86-64 programs by RUN, as qemu-x86_64 of the Debian package qemu-user"
        quote "$small.said"
    fi
}

# Sets `run`, and `runs` if it is known. Where the machine is no x86-64, programs are linked statically, and the emulator, the first word
# that tools/prove --runner prints, runs them without a loader, which would start them as programs of this machine's own.
want_runner() {
    run=${RUN:-} runs=yes
    if [ -n "$run" ]; then
        command -v "${run%% *}" >/dev/null 2>&1 || {
            lack "there is no program ${run%% *}, which RUN names to run x86-64 programs: name another, or leave RUN away"
            runs=''
        }
    elif [ "$machine" != x86_64 ]; then
        run=$(tools/prove --runner 2>/dev/null) || run=''
        run=${run%% *}
        [ -n "$run" ] || run=$(command -v qemu-x86_64) || {
            lack "nothing runs x86-64 programs on this machine ($machine): install the Debian package qemu-user, or name an emulator by RUN"
            runs=''
        }
    fi
}

# Whether a Rust compiler has a standard library for x86-64.
rust_target=x86_64-unknown-linux-gnu
builds_for_x86_64() {
    folder=$($1 --target $rust_target --print target-libdir 2>/dev/null) || return 1
    [ -n "$(find "$folder" -name 'libstd-*.rlib' 2>/dev/null)" ]
}
about_rust_target="rustup target add $rust_target, or, for Debian's rustc, dpkg --add-architecture amd64, apt-get update and apt-get install libstd-rust-dev:amd64"

# ---- the library

# Proves and builds it, if that is not done yet. The words say what is not done if it cannot be had.
want_library() {
    [ -x tools/prove ] || missing "$*: there is no program tools/prove, which proves and builds the library; restore it, as by git checkout tools/prove"
    tools/prove --staticlib primal_c || missing "$*: tools/prove --staticlib primal_c ended with status $?"
    [ -f target/staticlib/libprimal_c.a ] || missing "$*: tools/prove --staticlib primal_c made no target/staticlib/libprimal_c.a"
}

# Builds a C program with the library: build PROGRAM SOURCES..
build() {
    program=$1
    shift
    # shellcheck disable=SC2086
    $cc -std=c11 -Wall -Wextra -O2 ${CFLAGS:-} "$@" target/staticlib/libprimal_c.a $link -o "$program.$$" && mv -f "$program.$$" "$program"
}

# The sources that the tools share, and one of their own.
build_tool() {
    build "target/tools/$1" "tools/src/$1.c" tools/src/view.c tools/src/judge.c tools/src/shots.c tools/src/nests.c tools/src/original.c tools/src/partners.c \
        tools/src/port.c tools/src/progress.c || missing "tools/src/$1.c could not be built with $cc; its words stand above"
}

# ---- the original as a program (docs/DIFFERENCES.md)

about_original='docs/DIFFERENCES.md, "The original as a program", says what ORIGINAL is and how to build it'

# Whether `original` is what it should be: nothing to an empty tape, and two commands and an end to one conflict, on a tape and on a table.
want_original() {
    if [ ! -e "$original" ]; then
        lack "there is no program $original; $about_original"
    elif [ ! -f "$original" ]; then
        lack "$original is a folder or the like, and no program; $about_original"
    elif [ ! -x "$original" ]; then
        lack "$original may not be executed, so it is not the original's program, or chmod +x is needed; $about_original"
    else
        try_original
    fi
}

try_original() {
    conflict=1200010000000100000001000a0000000b000000 commands=06001000000000000600100001000000
    : >"$scratch/nothing"
    printf '\022\000\001\000\000\000\001\000\000\000\001\000\012\000\000\000\013\000\000\000' >"$scratch/tape"
    ask 128 nothing
    if [ "$answer $status" != ' 0' ]; then
        not_original 'on an empty tape' nothing
        return
    fi
    ask 128 tape
    if [ "$answer $status" != "${commands}040013000000 0" ]; then
        not_original "on the tape $conflict" "${commands}040013000000"
        return
    fi
    # a fresh table of begin 128, and the conflict on it
    {
        printf '\200\000\000\000\000\000'
        slots=0
        while [ $slots -lt 256 ]; do
            printf '\000\377\377\377\377\377\377\377\377\377\377\377\377\377\377\377\377\377\377\377\377\377'
            slots=$((slots + 1))
        done
        cat "$scratch/tape"
    } >"$scratch/table"
    ask --tables table
    case "$answer $status" in
    "0010000000${commands}800002000000"*' 0') ;;
    *) not_original "on a fresh table and the request $conflict" "0010000000${commands}800002000000 and so on" ;;
    esac
}

# ask WORD INPUT: sets `status`, and `answer`, its first bytes in hex. The rest is read as well, but not without end.
ask() {
    word=$1 limit=''
    ! command -v timeout >/dev/null 2>&1 || limit='timeout 10'
    answer=$(
        {
            $limit "$original" "$word" <"$scratch/$2" 2>"$scratch/said" && echo 0 >"$scratch/status" || echo $? >"$scratch/status"
        } | { od -An -v -tx1 -N 40 && dd bs=4096 count=1000 of=/dev/null 2>/dev/null; } | tr -d ' \n'
    )
    status=$(cat "$scratch/status")
}

not_original() { # ON WHAT IT WAS ASKED, WHAT IT SHOULD WRITE
    ended="ends with status $status"
    [ "$limit $status" != 'timeout 10 124' ] || ended='does not end within ten seconds'
    lack "$original is not the original's program: called with the word $word $1 it should write $2 and end with status 0, but it writes ${answer:-nothing} and $ended; $about_original"
    if [ -s "$scratch/said" ]; then
        say "on standard error $original says:"
        quote "$scratch/said"
    fi
    case $machine:$(od -An -v -tx1 -N 20 "$original" | tr -d ' \n') in
    x86_64:7f454c46*3e00 | aarch64:7f454c46*b700) ;;
    *:7f454c46*) say "$original seems to be made for another kind of machine than this one ($machine)" ;;
    esac
}
