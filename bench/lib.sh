# What bench/run and bench/check share, to be read from the root of the repository: the driver over the proved library and the second simulator,
# and the instructions that it takes. Counts, not seconds: qemu-user runs the program with a plugin that counts.
# Installs by apt-get what is missing: a C compiler, qemu-user.
# shellcheck shell=sh
. tests/lib.sh
room=$(mktemp -d)
trap 'rm -rf "$room"' EXIT

# Writes the proved library, where it is not there or anything that could change it is newer.
need_library() {
    archive=target/staticlib/libvp1.a
    if [ ! -f "$archive" ] || [ -n "$(find crates crates.txt -name out -prune -o -type f -newer "$archive" -print | head -n 1)" ]; then launcher/prove vp1 >&2; fi
}

# The version of qemu's plugin interface.
interface() {
    major=$(qemu-x86_64 --version | sed -n '1s/.*version \([0-9]*\).*/\1/p')
    if [ "${major:-0}" -ge 9 ]; then echo 2; else echo 1; fi
}

build_driver() {
    need gcc gcc libc6-dev
    need qemu-x86_64 qemu-user
    need_cc
    need_engine "$room/second"
    need_library
    gcc -O2 -shared -fPIC -DINTERFACE="$(interface)" -o "$room/count.so" bench/count.c
    "$cc" -std=c11 -D_POSIX_C_SOURCE=200809L -O3 -Wall -Wextra -Wpedantic -Werror -static -Iinclude -Isecond -o "$room/driver" \
        bench/driver.c "$engine/vp1_second.o" "$archive"
}

# ENGINE LIST STEPS BUDGET: the instructions of one run.
count() {
    counted=$(qemu-x86_64 -plugin "$room/count.so" "$room/driver" "$@" 2>&1) || {
        echo "bench: the driver failed: $*: $counted" >&2
        return 1
    }
    echo "$counted"
}

# ENGINE LIST STEPS: the instructions of all steps, without what comes before and after them.
steps() {
    all=$(count "$1" "$2" "$3" "$3") || return 1
    rest=$(count "$1" "$2" "$3" 0) || return 1
    echo $((all - rest))
}

# ENGINE LIST: tenths of instructions for each step.
each() {
    taken=$(steps "$1" "$2" 2000) || return 1
    echo $((taken * 10 / 2000))
}

# ENGINE LIST TRIPLES: the instructions of all calls on a list of so many triples, with what comes before and after the steps.
calls() {
    all=$(count "$1" "$2" "$3" "$3") || return 1
    rest=$(count none "$2" "$3" "$3") || return 1
    echo $((all - rest))
}

# NUMBER NUMBER: how many times the second the first is, in thousandths, rounded up: a ratio that is above a limit shows as above.
thousandths() { echo $((($1 * 1000 + $2 - 1) / $2)); }

# THOUSANDTHS: as a number with a point.
thousandth() { printf '%d.%03d' $(($1 / 1000)) $(($1 % 1000)); }

# TENTHS: as a number with a point.
tenth() { printf '%d.%d' $(($1 / 10)) $(($1 % 10)); }
