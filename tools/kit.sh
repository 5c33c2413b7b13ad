# Read by the scripts that use Rattle's kit: where it is, how a thing is proved and made, how a program is started.
# shellcheck shell=bash

set -o pipefail # make_current asks how rt ended

say() { echo "$0: $*" >&2; }

command -v rt >/dev/null || { say "there is no rt on the PATH; it is in the folder bin of Rattle's kit"; exit 2; }
machine=$(uname -m)
kit=${RATTLE_HOME:-$(readlink -f "$(command -v rt)")}
kit=${kit%/bin/rt}
toolchain=$kit/toolchain

# start PROGRAM: runs a linked program. Programs are for x86-64 and for the kit's C library, which may be newer than this
# machine's, so the kit's loader starts them, on another processor by the emulator that the system runs the kit with.
start() { "$toolchain/lib/ld-linux-x86-64.so.2" --library-path "$toolchain/lib" "$@"; }

# alone COMMAND..: runs it while no other of these scripts makes something in this clone, so that each thing is made once.
# The command inherits the lock, so an rt that outlives its script still holds it.
alone() {
    {
        flock -n 9 || { say "another command proves in this folder; waiting for it"; flock 9; }
        "$@"
    } 9<.
}

# made FILE NAME COMMAND..: sees to it that FILE is what COMMAND makes of the crate NAME now, as rt proves it.
made() {
    is_current "$1" || alone make_current "$@"
}

# The mark of a file that was made holds the kit, the machine and the folders of the sources, and is as old as the beginning
# of its proof: what was edited since is newer. The time of the change counts (-cnewer), as an old file may have been copied
# over a new one.
mark_of() { echo "target/made/${1##*/}"; }

mark_now() { local folders=(crates/*/{src,specs,proofs}/) && echo "$machine $kit ${folders[*]}"; }

is_current() { [ -f "$1" ] && is_fresh "$(mark_of "$1")"; }

# is_fresh MARK: whether what it was made from is as it was. What rt makes lies in crates/*/out.
is_fresh() {
    local made_by newer
    [ -f "$1" ] && read -r made_by <"$1" && [ "$made_by" = "$(mark_now)" ] || return 1
    newer=$(
        find crates -mindepth 2 \( -regex 'crates/[^/]*/out' -prune -o -cnewer "$1" -print -quit \) &&
            find crates.txt tools/kit.sh tools/staticlib "$kit/KIT-ID" -cnewer "$1" -print -quit
    ) && [ -z "$newer" ]
}

# mark_ci BEGAN: says, once `rt ci` has passed, that what it left in crates/*/out was made of the crates as they were when
# the file BEGAN was written.
mark_ci() {
    is_writable target && mark_now >target/made/ci.new && touch -r "$1" target/made/ci.new && mv target/made/ci{.new,}
}

is_program() { [ -f "crates/$1/src/main.rt" ]; }

# has_ci_passed: whether the last whole `rt ci` of the gate here was of the crates as they are now.
has_ci_passed() { is_fresh target/made/ci; }

# make_program NAME: makes target/bin/NAME. `rt run` also runs the program, here on no input. The gate's `rt ci` leaves the
# program that it proved in the same place.
make_program() {
    { has_ci_passed && [ -f "crates/$1/out/$1" ]; } || (cd "crates/$1" && rt run) || return
    mkdir -p target/bin && cp "crates/$1/out/$1" "target/bin/$1.new" && mv "target/bin/$1"{.new,}
}

make_current() {
    local file=$1 name=$2 mark
    shift 2
    ! is_current "$file" || return 0 # whoever was waited for has made it
    mark=$(mark_of "$file")
    if ! { is_writable target && mark_now >"$mark.new"; } 2>/dev/null; then
        say "cannot write in $PWD/target"
        return 2
    fi
    if ! "$@" </dev/null 2>&1 | tee target/made/said | tell_turns "$name"; then
        cat target/made/said >&2
        return 2
    fi
    mv "$mark.new" "$mark"
}

# is_writable FOLDER: whether the scripts can write in it and in the folders that they keep there.
is_writable() {
    local folder
    mkdir -p "$1/made" || return 1
    for folder in "$1" "$1"/*/; do
        [ -w "$folder" ] || return 1
    done
}

# tell_turns NAME: reads what rt says, and says which crate is in turn and how many are left. rt tells of a crate that it
# proves, and not of one that it has proved before: those that come before a crate in rt's order are done where it is.
tell_turns() {
    local left row crate=
    left=" $(crates_of "$1" | tr '\n' ' ')"
    ! has_ci_passed || left=" $(is_program "$1" || echo "$1") "
    tell_turn "$left"
    while IFS= read -r row; do
        if [[ $row =~ ^crate\ ([A-Za-z0-9_]+): ]]; then
            crate=${BASH_REMATCH[1]}
        elif [[ $row =~ ^logic=proved && -n $crate && $left = *" $crate "* ]]; then
            left=" ${left#*" $crate "}"
            crate=
            tell_turn "$left"
        fi
    done
}

tell_turn() {
    local left
    read -ra left <<<"$1"
    [ ${#left[@]} -eq 0 ] || say "proving ${left[0]}; crates left: ${#left[@]}"
}

# crates_of NAME: the crate and all it uses, in the order in which rt proves them: each after those that it uses.
crates_of() {
    awk -v wanted="$1" '
        function visit(name, used, n, i) {
            if (name in seen) return
            seen[name] = 1
            n = split(uses[name], used)
            for (i = 1; i <= n; i++) if (used[i] in uses) visit(used[i])
            print name
        }
        { sub(/#.*/, "") }
        split($0, half, ":") == 2 { split(half[1], said); uses[said[1]] = half[2] }
        END { if (wanted in uses) visit(wanted) }' crates.txt
}
