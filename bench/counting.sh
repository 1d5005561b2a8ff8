# shellcheck shell=sh
# What bench/run, bench/profile and bench/draw-growth share: programs run under the emulator's plugin that counts instructions. Each
# reads tools/common.sh first, and sets `dir`, where what is built goes.

# Looks for what counting needs besides the compiler.
want_counter() {
    command -v gcc >/dev/null 2>&1 || lack "there is no compiler gcc, which builds the emulator's plugin: install the Debian packages gcc and libc6-dev"
    emulator=$(command -v qemu-x86_64) || lack "there is no emulator qemu-x86_64: install the Debian package qemu-user"
}

# emulate FILE PROGRAM WORDS..: runs the program and counts by address into the file; both are names in `dir`, and what the program says
# goes to `said` there. The program has the same name and no environment wherever that is, so that its stack is aligned alike: on that the
# C library's memset and memcpy depend.
emulate() {
    file=$1 program=$2
    shift 2
    rm -f "$dir/$file"
    (cd "$dir" && exec env -i "$emulator" -plugin "./blocks.so,out=$file" "./$program" "$@") >"$dir/said" 2>&1
}

# Builds the driver, and the plugin for the version of the interface that the emulator has.
build_counter() {
    build "$dir/driver" -Iinclude bench/driver.c tools/src/deep.c || missing "bench/driver.c could not be built with $cc; its words stand above"
    printf 'int main(void) { return 0; }\n' >"$dir/small.c"
    # shellcheck disable=SC2086
    $cc $link ${CFLAGS:-} "$dir/small.c" -o "$dir/small" || missing "$cc does not compile a small program; its words stand above"
    for version in 1 2 3 4 5 6; do
        gcc -shared -fPIC -O2 -Wall -Wextra -DVERSION=$version bench/blocks.c -o "$dir/blocks.so" ||
            missing "bench/blocks.c could not be built with gcc; its words stand above"
        if emulate counts small && [ -s "$dir/counts" ]; then return; fi
    done
    say "the emulator qemu-x86_64 does not take the plugin bench/blocks.c; it says:"
    quote "$dir/said"
    exit 2
}

# count FILE PROGRAM WORDS..: the same, or the end of the script
count() {
    emulate "$@" || {
        status=$?
        shift
        done_with_it
        say "the instructions of $* cannot be counted; it says: $(cat "$dir/said")"
        [ $status -eq 1 ] || status=2
        exit $status
    }
    [ -s "$dir/$1" ] || missing "the plugin wrote no counts to $dir/$1"
}

# in_all FILE: the instructions that it counts
in_all() { awk '{ n += $2 } END { printf "%d", n }' "$dir/$1"; }

# tenth INPUT PROGRAM WORDS..: sets `tenth` to a tenth of the difference between the words with 11 and with 01 in the last place, which are
# equally long
tenth() {
    input=$1
    shift
    count counts.1 "$@" 01 <"$input"
    count counts.11 "$@" 11 <"$input"
    tenth=$((($(in_all counts.11) - $(in_all counts.1)) / 10))
}
