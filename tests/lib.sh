# What the scripts share, to be read by `. tests/lib.sh` from sh or bash: what they install, which compiler makes programs for the proved libraries,
# how those programs are built and run, and where second/ is built. The libraries and the proved programs are for x86-64. The names here end up in
# the script that reads it: cc, cxx, kit, tools, emulator, second, engine.
# shellcheck shell=sh

# COMMAND PACKAGE..: installs the packages by apt-get where the command is missing.
need() {
    ! command -v "$1" >/dev/null || return 0
    shift
    echo "installing $*" >&2
    apt-get update -qq >&2
    DEBIAN_FRONTEND=noninteractive apt-get install -y -qq --no-install-recommends "$@" >/dev/null
}

# Sets cc to a C compiler that makes x86-64 programs, whatever CC says: gcc, and elsewhere a cross compiler.
need_cc() {
    case $(uname -m) in
    x86_64) cc=gcc && need "$cc" gcc libc6-dev ;;
    *) cc=x86_64-linux-gnu-gcc && need "$cc" gcc-x86-64-linux-gnu libc6-dev-amd64-cross ;;
    esac
}

# Sets cxx to such a compiler for C++.
need_cxx() {
    case $(uname -m) in
    x86_64) cxx=g++ && need "$cxx" g++ libc6-dev ;;
    *) cxx=x86_64-linux-gnu-g++ && need "$cxx" g++-x86-64-linux-gnu libc6-dev-amd64-cross ;;
    esac
}

# PROGRAM FILE..: builds an x86-64 program over the proved libraries that are there. Words for the compiler, as -D, may stand among the files.
build_program() {
    need_cc
    "$cc" -std=c11 -O2 -Wall -Wextra -Wpedantic -Werror -static -Iinclude -Isecond -o "$@" \
        target/staticlib/lib*.a
}

# Sets kit, the toolchain's folder; tools, what programs run with; and emulator, an emulator of x86-64 that a toolchain may have: nothing where it has none.
find_tools() {
    kit=$(dirname "$(rt doc </dev/null)") # whatever standard input is: rt cannot begin where it is a folder
    tools=$kit/toolchain
    emulator=$tools/bin/qemu-x86_64
    [ -x "$emulator" ] || emulator=''
}

# PROGRAM WORDS..: runs a program that needs no shared library.
run_static() {
    find_tools
    ${emulator:+"$emulator"} "$@"
}

# PROGRAM WORDS..: runs a program of target/bin by the toolchain's loader, as rt does.
run_proved() {
    find_tools
    ${emulator:+"$emulator"} "$tools/lib/ld-linux-x86-64.so.2" --library-path "$tools/lib" "$@"
}

# FOLDER: sets second to where the programs of second/ are, for this machine. VP1_SECOND names a folder that need_second and need_engine have filled,
# so that the gate builds them once for all its tests; else they are built into FOLDER.
need_second() {
    second=${VP1_SECOND:-$1}
    if [ -z "${VP1_SECOND-}" ]; then
        set -- "${CC:-gcc}"
        need "${1%% *}" gcc libc6-dev # CC may hold words for the compiler too
        second/build "$second"
    elif [ ! -x "$second/selftest" ]; then
        echo "VP1_SECOND: second/build has not filled $second" >&2
        return 1
    fi
}

# FOLDER: sets engine to where the second program's object files for x86-64 are, vp1_second.o, places.o, lines.o and parts.o: the folder x86-64 of VP1_SECOND or of
# FOLDER; on x86-64 that folder itself, where need_second has them built too.
need_engine() {
    engine=${VP1_SECOND:-$1}
    [ "$(uname -m)" = x86_64 ] || engine=$engine/x86-64
    [ ! -f "$engine/parts.o" ] || return 0
    [ -z "${VP1_SECOND-}" ] || {
        echo "VP1_SECOND: second/build has not filled $engine" >&2
        return 1
    }
    need_cc
    CC=$cc second/build "$engine" objects
}
