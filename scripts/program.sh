# shellcheck shell=bash
# What ./list and ./total share: each runs a program on a file, and proves and builds it first where that is missing. What the program says on
# standard error is handed on, and decides the status.
#
# Before this file is read, these are set: root, the repository; name, the command's own (list); program, the crate that it runs (lister); and
# loss, what is said where the output is not whole. usage prints the help.

# A message that can't be written changes no status.
say() {
    printf '%s\n' "$1" >&2 || true
}

stop() {
    say "$name: $2"
    exit "$1"
}

# Sets file and strict.
understand() {
    local files=()
    strict=
    while [ $# -gt 0 ]; do
        case $1 in
        --help) if usage; then exit 0; else exit 4; fi ;;
        --strict) strict=1 ;;
        --)
            files+=("${@:2}")
            break
            ;;
        -?*) stop 2 "there is no option $1; ./$name --help says which there are, and ./$name ./$1 ${name}s a file of that name" ;;
        *) files+=("$1") ;;
        esac
        shift
    done
    [ ${#files[@]} -le 1 ] || stop 2 "one file at a time, as each has a layout of its own: for file in A B; do ./$name \"\$file\"; done"
    file=${files[0]-$root/examples/weighbridge.txt}
}

# A closed descriptor would be given to the next file that is opened, and the output might end up there. Where standard error was closed,
# bash has opened the command's script there.
open_descriptors() {
    { [ -e /dev/fd/2 ] && [ ! /dev/fd/2 -ef "${BASH_SOURCE[-1]}" ]; } || exec 2>/dev/null
    [ -e /dev/fd/1 ] || stop 4 "standard output is closed"
    [ ! -e /dev/fd/0 ] || return 0
    [ "$file" != - ] || stop 4 "standard input is closed"
    exec </dev/null
}

readable() {
    [ "$file" != - ] || return 0
    [ -e "$file" ] || stop 4 "no such file: $file"
    [ ! -d "$file" ] || stop 4 "a folder, not a file: $file"
    [ -r "$file" ] || stop 4 "not readable: $file"
}

# The crates that the program is made of.
made_of() {
    awk -F ': *' -v program="$program" '
        /^[a-z]/ { sub(/ .*/, "", $1); names[++last] = $1; needs[$1] = $2 }
        END {
            wanted[program] = 1
            for (i = last; i > 0; i--) {
                if (!wanted[names[i]]) continue
                print names[i]
                count = split(needs[names[i]], below, " ")
                for (j = 1; j <= count; j++) wanted[below[j]] = 1
            }
        }' "$root/crates.txt"
}

# Sets folders, where the texts are that the program is made of.
texts() {
    local crate part
    folders=()
    while read -r crate; do
        for part in src specs proofs; do
            [ ! -d "$root/crates/$crate/$part" ] || folders+=("$root/crates/$crate/$part")
        done
    done < <(made_of)
}

# Whether the file is a program that is newer than what it is made of.
is_new() {
    [ -x "$1" ] && [ -z "$(find "${folders[@]}" -newer "$1" -print -quit)" ]
}

# Proves and builds, by `rt run` on no input, which has to come as far as running the program: what that says is not handed on.
prove() {
    { (cd "$root/crates/$program" && rt run 2>&1 >/dev/null </dev/null) || true; } |
        awk '/^rt: running / { runs = 1 } !runs { print; fflush() } END { exit !runs }' >&2
}

# Takes the program that the kit has built, so that it stays where the kit begins anew.
take() {
    mkdir -p "${built%/*}" && cp "$proved" "$built.$$" && mv -f "$built.$$" "$built"
}

# Proves and builds unless the program is newer than what it is made of. Without the kit an older program serves.
build() {
    local folders proved=$root/crates/$program/out/$program
    texts
    ! is_new "$built" || return 0
    if ! is_new "$proved"; then
        if command -v rt >/dev/null; then
            say "$name: proving and building the $program; the first time takes some minutes"
            prove || stop 5 "the $program can't be built"
        else
            [ -x "$built" ] || stop 5 "the $program is not built, and the Rattle kit (rt) is not installed"
            say "$name: warning: the $program is older than what it is made of, and the Rattle kit (rt) is not installed"
            return
        fi
    fi
    take || stop 5 "the $program can't be built: $built can't be written"
}

# The kit and what it builds are for x86-64.
right_machine() {
    local machine
    machine=$(uname -m)
    [ "$machine" = x86_64 ] || stop 5 "the $program is for x86-64, and this machine is $machine"
}

# Runs the program and sets said, what it said on standard error. Its status is 0 unless a signal ended it, or it can't be run; a program that
# a closed pipe has ended says nothing.
say_and_print() {
    local ended=0
    [ "$file" = - ] || { exec <"$file"; } 2>/dev/null || stop 4 "can't be opened: $file"
    exec 3>&1
    said=$(ulimit -c 0 && exec "$built" 2>&1 >&3 3>&-) || ended=$?
    [ -z "$said" ] || say "$said"
    case $ended in
    0 | 141) ;;
    129 | 1[3-9]?) stop 4 "the $program was ended by signal $((ended - 128)), $loss" ;;
    *) stop 5 "the $program can't be run (status $ended)" ;;
    esac
}

# run_program ARGUMENT..: all of it. Sets strict and said, by which the command ends.
run_program() {
    built=$root/target/bin/$program
    understand "$@"
    open_descriptors
    readable
    right_machine
    build
    say_and_print
}
