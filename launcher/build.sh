# How ./vp1 proves and builds a program: one use at a time, with word of how far it is, and so that an interrupt ends the prover too. Read by vp1 where
# something has to be built.
# shellcheck shell=sh
# shellcheck disable=SC2154 # here, parts, state, kit, tools, bin, program and room are vp1's

# ---- One at a time

# Waits until no other use builds in this repository. The lock is on the folder crates/, which nothing removes; VP1_LOCKED says that whoever started vp1 has it.
lock() {
    [ "${VP1_LOCKED-}" != "$here" ] || return 0
    exec 9<"$here/crates"
    if command -v flock >/dev/null; then
        flock -n 9 2>/dev/null && return
        say_waiting
        flock 9 &
        child=$!
        wait "$child" && child='' && return
        child=''
    fi
    lock_by_link
}

# Says so.
say_waiting() { say "another use of vp1 is building in $here: waiting for it"; }

# The same where there is no flock, or none on this file system: a link that names its holder.
lock_by_link() {
    link=$here/.vp1-lock own="$$ $(born $$)" waiting='' tries=0
    until ln -s "$own" "$link" 2>/dev/null; do
        holder=$(readlink "$link")
        if [ -z "$holder" ]; then
            tries=$((tries + 1))
            [ "$tries" -lt 3 ] || unwritable "$here"
        elif [ "$(born "${holder% *}")" != "${holder#* }" ]; then
            say "a use of vp1 that has ended left $link behind: it is taken away"
            rm -f "$link"
        else
            [ -n "$waiting" ] || say_waiting
            waiting=1
        fi
        pause 1
    done
    locked=$link
}

# PID: when that process began, in the machine's own count: with its number it names one process.
born() {
    { read -r stat <"/proc/$1/stat"; } 2>/dev/null || return 0
    # shellcheck disable=SC2086
    set -- ${stat##*) }
    echo "${20}"
}

# Lets the next one build.
unlock() {
    [ -z "$locked" ] || rm -f "$locked"
    locked=''
    exec 9<&-
}

# SECONDS: waits, and can be interrupted.
pause() {
    sleep "$1" &
    child=$!
    wait "$child"
    child=''
}

# FOLDER: ends what cannot write there.
unwritable() {
    refuse "the folder $1 cannot be written, and ${program:-this} has to be built there: ask for leave to write there, or copy the repository to a folder of your own (cp -R)"
}

# ---- Started things

# COMMAND..: runs it at the top of the repository, in a session of its own, which end_group can end with all that is in it. Its standard output is our descriptor 6,
# its standard error 5, and its status is ours. A pipe brings an empty line for each second, for which the function tick is called, and at the end the status.
grouped() {
    command -v setsid >/dev/null || refuse "setsid is missing: install it (Debian: util-linux)"
    need_room
    [ -p "$room/clock" ] || mkfifo "$room/clock"
    # shellcheck disable=SC2016 # the inner shell's
    setsid sh -c '
        exec 4>"$1"
        cd "$2" && shift 2 || exit
        while sleep 1 && [ -e "/proc/$$/fd/0" ] && echo >&4; do :; done >/dev/null 2>&1 9<&- &
        "$@" 4>&-
        echo "$?" >&4' sh "$room/clock" "$here" "$@" </dev/null >&6 2>&5 5>&- 6>&- 7<&- &
    group=$!
    exec 8<"$room/clock"
    while read -r told <&8 && [ -z "$told" ]; do
        tick
    done
    exec 5>&- 6>&- 8<&-
    wait "$group"
    kill -TERM "-$group" 2>/dev/null # the clock
    group=''
    return "${told:-1}"
}

# Ends all that grouped started, and waits until it is gone.
end_group() {
    tenths=0
    kill -TERM "-$group" 2>/dev/null
    while ids=$(group_runs) && [ "$tenths" -lt 30 ]; do
        # shellcheck disable=SC2086 # numbers
        if [ "$tenths" -lt 20 ]; then kill -TERM $ids; else kill -KILL $ids; fi 2>/dev/null
        sleep 0.1
        tenths=$((tenths + 1))
    done
}

# Which processes of the session run, also in groups of their own, as timeout makes one: one that has ended, and that nobody has asked for yet, does not.
group_runs() { cat /proc/[0-9]*/stat 2>/dev/null | awk -v s="$group" '{ id = $1; sub(/.*\) /, "") } $1 !~ /[ZX]/ && $4 == s { print id; runs = 1 } END { exit !runs }'; }

# ---- How far it is

began='' # when a build was begun

# PROGRAM: about how long it takes from nothing, on two processors.
how_long() {
    case $1 in
    lab) echo "less than a minute" ;;
    plot) echo "a minute or two" ;;
    lines) echo "three or four minutes" ;;
    *) echo "about ten minutes" ;;
    esac
}

# SECONDS: as one says it.
spoken() { if [ "$1" -lt 60 ]; then echo "$1 s"; else echo "$(($1 / 60)) min $(($1 % 60)) s"; fi; }

# Says how far a build is, if there is one. On a terminal in one line, which is written again each time; else a line for each news, and one after nine
# seconds without any: a second may be late.
tick() {
    [ -n "$began" ] || return 0
    elapsed=$(($(date +%s) - began))
    now=$(CRATES=$crates awk -f "$parts/progress.awk" "$said")
    [ -n "$announced" ] || say "$program is proved and built first: from nothing this takes $(how_long "$program"), and later uses start at once"
    announced=1
    if [ -t 2 ] && [ "${TERM:-dumb}" != dumb ]; then
        rewrite "vp1: $now; $(spoken $elapsed) so far"
    elif [ "$now" != "$news" ] || [ $((elapsed - spoke)) -ge 9 ]; then
        say "$now; $(spoken $elapsed) so far"
        news=$now spoke=$elapsed
    fi
}

# TEXT: writes it over the line that stands there, cut to the terminal's width.
rewrite() {
    columns=$(stty size <&2 2>/dev/null | sed 's/.* //')
    [ "${columns:-0}" -gt 1 ] || columns=80
    wipe
    line=$(printf "%.$((columns - 1))s" "$1")
    printf '%s' "$line" >&2
}

# Takes that line away.
wipe() {
    printf '\r\033[K' >&2
    line=''
}

# ---- Building

# PROGRAM: proves and builds it, unless another use has done that in the meantime.
build() {
    [ -f "$here/crates/$1/src/main.rt" ] || refuse "there is no program $1 here (crates/$1/src/main.rt)"
    { mkdir -p "$state" && true >"$state/write"; } 2>/dev/null || unwritable "$here/target"
    rm -f "$state/write"
    lock
    is_current "$1" || prove "$1"
    unlock
}

# PROGRAM: has rt prove and build it, and keeps the sum of what it was built from and the name of the folder that has its loader.
prove() {
    made_from=$(sources "$1")
    said=$state/said crates=$(crates_of "$1" | sed 's/:.*//')
    began=$(date +%s) spoke=0 news='' announced=''
    exec 6>"$said" 5>&6
    grouped "$parts/prove" "$1" || failed "$1"
    [ -z "$announced" ] || say "$1 is proved and built, in $(spoken $(($(date +%s) - began)))"
    began=''
    printf '%s\n' "$tools" >"$state/tools"
    printf '%s\n' "$made_from" "$(sha256sum <"$bin")" >"$state/$1.sum"
}

# PROGRAM: says the first error, where all of it stands, and ends.
failed() {
    say "launcher/prove $1 failed:"
    LC_ALL=C awk -f "$parts/error.awk" "$said" >&2
    crate=$(sed -n 's/^rt: \([a-z0-9_]*\) NOT PROVED$/\1/p' "$said" | head -n 1)
    log=$said
    [ -z "$crate" ] || log=$here/target/log/$crate.out
    say "$1 is not run; all that was said stands in $log"
    exit 1
}
