# How ./vp1 makes a pack for a class: a folder that runs on x86-64 Linux without the toolchain, and has nothing of the machine it was made on. Read by vp1.
# shellcheck shell=sh
# shellcheck disable=SC2154 # here, parts, kit, lib, emulator and feed are vp1's

programs='desk pipe lines plot lab'
pages='COMMANDS LISTING NAMES INSTRUCTIONS LAB PARTS PLACES PICTURES' # the documents for trainees

# FOLDER PAGE: makes the pack, with that page too if it is named. All that can be refused is refused before the programs are built.
make_pack() {
    folder=$1
    for page in $pages $2; do
        [ -f "$here/docs/$page.md" ] || refuse "docs/$page.md is missing, and a pack has it"
    done
    find_way
    [ "$way" = kit ] || refuse "$no_toolchain: pack takes the programs' loader and C library from it"
    begin_folder
    for program in $programs; do
        ready "$program" :
    done
    fill "$2"
    packing=''
    printf '%s: %s files, %s bytes\n' "$folder" "$(find "$folder/" -type f | wc -l)" "$(find "$folder/" -type f -exec cat {} + | wc -c)" >"$room/said"
    show "$room/said"
}

# Makes the folder, or takes it if it is empty. From here on it is emptied again unless the pack is finished.
begin_folder() {
    need_room
    case $folder in -*) folder=./$folder ;; esac
    if [ -d "$folder" ]; then
        [ -z "$(ls -A "$folder")" ] || refuse "the folder $folder is there, and not empty"
        was_there=1
    else
        mkdir "$folder" 2>"$room/said" || refuse "the folder $folder cannot be made: $(sed 's/.*: //' "$room/said")"
        was_there=''
    fi
    packing=$folder
}

# Takes away what is unfinished.
unpack() {
    rm -rf "${packing:?}"/*
    [ -n "$was_there" ] || rmdir "$packing"
}

# Ends where a file cannot be written.
unpacked() {
    say "the pack could not be written in $folder: what was there of it is taken away"
    exit 3
}

# MODE FILE NAME: a file of the pack, from one that is there; - is standard input.
put() {
    case $3 in */*) mkdir -p "$folder/${3%/*}" || unpacked ;; esac
    { cat "$2" >"$folder/$3" && chmod "$1" "$folder/$3"; } || unpacked
}

# PAGE: fills the folder.
fill() {
    find_loader
    put 755 "$here/vp1" vp1
    for file in paint.sed near.awk $(way=pack && commands | sed 's,[a-z]*,help/&,g') help/status help/more; do
        put 644 "$parts/$file" "launcher/$file"
    done
    for program in $programs; do
        put 755 "$here/target/bin/$program" "bin/$program"
    done
    fill_lib
    fill_texts "$1"
    (cd "$folder" && find . -type f | sed 's,^\./,,' | LC_ALL=C sort | xargs sha256sum) >"$room/sums" || unpacked
    put 644 "$room/sums" SHA256SUMS
    { find "$folder/" -type d -exec chmod 755 {} + && find "$folder/" -exec env TZ=UTC0 touch -t 200001010000 {} +; } || unpacked
}

# The loader, the libraries that the programs ask it for, and on what terms these come.
fill_lib() {
    loader=$lib/ld-linux-x86-64.so.2
    put 755 "$loader" lib/ld-linux-x86-64.so.2
    for program in $programs; do
        ${emulator:+"$emulator"} "$loader" --library-path "$lib" --list "$here/target/bin/$program"
    done | sed -n 's/.* => \(.*\) (.*/\1/p' | LC_ALL=C sort -u >"$room/needed"
    [ -s "$room/needed" ] || refuse "$loader does not say which libraries the programs need"
    while IFS= read -r file; do
        put 755 "$file" "lib/${file##*/}"
    done <"$room/needed"
    for file in "$kit"/toolchain/*[Cc]opyright* "$kit"/toolchain/*LICEN* "$kit"/toolchain/*COPYING* "$lib"/*[Cc]opyright* "$lib"/*LICEN* "$lib"/*COPYING*; do
        [ ! -f "$file" ] || put 644 "$file" "lib/${file##*/}"
    done
    put 644 "$parts/pack/LGPL-2.1.txt" lib/LGPL-2.1.txt
    version=$(LC_ALL=C grep -a -o 'GNU C Library ([ -~]*' "$lib/libc.so.6" | sed -n 1p)
    printf '%s\n' "${version:-The GNU C Library}" | cat - "$parts/pack/ABOUT.txt" | put 644 - lib/ABOUT.txt || exit
}

# PAGE: what is read: the examples and the documents for trainees.
fill_texts() {
    for file in "$here"/examples/*.lst "$here"/examples/*.names "$here"/examples/*.words "$here"/examples/lab/* "$here"/examples/answers/*; do
        case $file in */answers/*) [ -n "$1" ] || continue ;; esac
        [ ! -f "$file" ] || put 644 "$file" "${file#"$here"/}"
    done
    for page in $pages $1; do
        put 644 "$here/docs/$page.md" "docs/$page.md"
    done
    for file in "$here"/docs/pictures/*; do
        put 644 "$file" "docs/pictures/${file##*/}"
    done
    put 644 "$parts/pack/README.txt" README.txt
    printf 'This folder is a pack: vp1 runs the programs in bin/, and builds none.\nThey were proved and built by %s.\n' "$(cat "$kit/KIT-ID")" | put 644 - PACK || exit
}
