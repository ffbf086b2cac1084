# shellcheck shell=bash
# For ../console, ../host/cargo, ../page/build and ../.ci/run, which source it: the kit, rt showing on standard error how far it is, the proved programs,
# and the proved library as an archive and as the module that the archive was compiled from. What is made stands in target/, with a record of what it was
# made of: rt ci clears a crate's own folder out/.

unset CDPATH
# the repository's folder
root=$(cd "$(dirname "${BASH_SOURCE[0]}")/.." && pwd -P) || exit 3

# The proved programs: document 01's, the one that shows A codes, and the one behind the calls by words.
PROGRAMS=(console formula words)
# The same as they stand in target/, and the archive of the library with its module.
MADE_PROGRAMS=("${PROGRAMS[@]/#/bin/}")
MADE_LIBRARY=(staticlib/libsundewfrill.a staticlib/sundewfrill.bc)

# The kit's folder in kit, and its compiler's in tools; fails where there is no kit, or not all of it.
find_kit() {
    local rt
    rt=$(command -v rt) || return 1
    kit=$(dirname "$(dirname "$(readlink -f "$rt")")")
    tools=$kit/toolchain
    [ -e "$kit/KIT-ID" ] && [ -e "$tools/lib/ld-linux-x86-64.so.2" ]
}

# The command that runs a program, a word a line, since a path may hold blanks: programs are for x86-64, and on another processor an emulator runs them
# by the kit's loader.
command_of() { # PROGRAM
    [ "$(uname -m)" = x86_64 ] || printf '%s\n' qemu-x86_64 "$tools/lib/ld-linux-x86-64.so.2" --library-path "$tools/lib"
    printf '%s\n' "$root/target/bin/$1"
}

# These crates and all below them, a line each, in the order in which rt proves them: the lines of crates.txt are 'NAME: DEP DEP'.
crates_needed() { # NAME...
    awk -F: -v names="$*" '
        function need(list,    i, n, name) {
            n = split(list, name, " ")
            for (i = 1; i <= n; i++) if (name[i] in below && !(name[i] in seen)) { seen[name[i]]; need(below[name[i]]); print name[i] }
        }
        { sub(/#.*/, "") }
        NF == 2 { split($1, word, " "); below[word[1]] = $2 }
        END { need(names) }' "$root/crates.txt"
}

# Shows each crate that rt proves, and its place among those that are needed.
show_proved() { # WHO CRATES, in their order; what rt says on standard input
    local crate='' begun=0 line place
    while true; do
        if IFS= read -r -t 30 line; then
            case $line in
            'rt: chose --jobs '*' for '*) crate=${line##* } begun=$SECONDS ;;
            'logic=proved '*)
                place=$(grep -nx "${crate:-none}" <<<"$2")
                [ -z "$place" ] || echo "$1: $crate proved ($((SECONDS - begun)) s), ${place%%:*} of $(wc -l <<<"$2")" >&2
                ;;
            'rt: waiting for '* | 'rt: '*': another copy of the repository is '*) echo "$1: ${line#rt: }" >&2 ;;
            esac
        elif [ $? -gt 128 ]; then
            # above 128: there was no line in time; one crate alone can take minutes
            echo "$1: still proving, $SECONDS s so far" >&2
        else
            return 0
        fi
    done
}

# Runs a command of the kit's in a crate's folder: progress goes to standard error, and where it fails the last lines of what it said.
shown_rt() ( # WHO CRATES CRATE COMMAND...
    who=$1
    log=$(mktemp) || exit 3
    trap 'rm -f "$log"' EXIT
    cd "$root/crates/$3" || exit 3
    "${@:4}" 2>&1 </dev/null 9>&- | tee "$log" | show_proved "$who" "$2"
    status=${PIPESTATUS[0]}
    [ "$status" -eq 0 ] || tail -n 30 "$log" | sed "s|^|$who: |" >&2
    exit "$status"
)

# Runs a command in the repository's folder when no other call makes something there.
alone() ( # WHO COMMAND...
    # shellcheck disable=SC2015
    cd "$root" && mkdir -p target 2>/dev/null && : 2>/dev/null >>target/proving.lock || {
        echo "$1: the folder target cannot be written" >&2
        exit 3
    }
    exec 9>target/proving.lock
    if command -v flock >/dev/null && ! flock -n 9; then
        echo "$1: waiting for another call that is proving here" >&2
        flock 9
    fi
    "${@:2}"
)

# The sum of what everything is made of: the sources and the kit.
sources() (
    cd "$root" && {
        cat "$kit/KIT-ID"
        find crates crates.txt -regex 'crates/[^/]*/out' -prune -o -type f -print0 | LC_ALL=C sort -z | xargs -0 sha256sum
    } 2>/dev/null | sha256sum
)

# Whether these files of target/ are there, as they were recorded when they were made of these sources.
unchanged() { # RECORD SOURCES FILES...
    local sums
    sums=$(cd "$root/target" 2>/dev/null && sha256sum "${@:3}" 2>/dev/null) && [ "$(cat "$root/target/$1.made-of" 2>/dev/null)" = "$2"$'\n'"$sums" ]
}

# Records of which sources these files of target/ were made.
record() { # RECORD SOURCES FILES...
    (cd "$root/target" && echo "$2" && sha256sum "${@:3}") >"$root/target/$1.new" && mv "$root/target/$1.new" "$root/target/$1.made-of"
}

# How much there is to prove, where nothing is recorded yet.
tell_of_first() { # WHO CRATES
    compgen -G "$root/target/*.made-of" >/dev/null || echo "$1: proving $(grep -c . <<<"$2") crates, some minutes the first time" >&2
}

# Takes the programs that are proved and built: each anew, since one that runs cannot be written to.
take_programs() { # SOURCES
    local program
    mkdir -p "$root/target/bin" || return
    for program in "${PROGRAMS[@]}"; do
        cp "$root/crates/$program/out/$program" "$root/target/bin/$program.new" && mv "$root/target/bin/$program.new" "$root/target/bin/$program" || return
    done
    record programs "$1" "${MADE_PROGRAMS[@]}"
}

# Proves and builds the programs; unless another call has done so meanwhile.
make_programs() { # WHO
    local now program crates
    # what stands here before proving: a change made meanwhile is seen by the next call
    now=$(sources)
    ! unchanged programs "$now" "${MADE_PROGRAMS[@]}" || return 0
    crates=$(crates_needed "${PROGRAMS[@]}")
    tell_of_first "$1" "$crates"
    for program in "${PROGRAMS[@]}"; do
        # it is run too, with nothing to read, and ends well
        shown_rt "$1" "$crates" "$program" rt run || return
    done
    take_programs "$now"
}

programs() { # WHO
    unchanged programs "$(sources)" "${MADE_PROGRAMS[@]}" || alone "$1" make_programs "$1"
}

# The kit's compiler and what lies with it as links, but that it keeps the module that it is given: what rattle compiles right after proving it.
mirror_tools() { # FOLDER KEPT-MODULE
    mkdir -p "$1/bin" && ln -s "$tools/lib" "$1/lib" && ln -s "$tools"/bin/* "$1/bin/" && rm "$1/bin/clang" || return
    {
        echo '#!/usr/bin/env bash'
        # shellcheck disable=SC2016
        printf 'for word; do case $word in *.bc) cat "$word" >%q || exit ;; esac; done\n' "$2"
        printf 'exec %q "$@"\n' "$tools/bin/clang"
    } >"$1/bin/clang" && chmod +x "$1/bin/clang"
}

# Nothing else of the kit works in this folder until this shell ends: rt goes by the same lock.
hold() { # WHO FOLDER
    local held
    exec {held}<"$2" || return
    if command -v flock >/dev/null && ! flock -n "$held"; then
        echo "$1: waiting for another rt to finish in $2" >&2
        flock "$held"
    fi
}

# The archive and its module, by one run of the kit's rattle, as rt lib has it run: it proves the library over those below it, which stand in their folders
# out/, and over what its last check kept, and compiles what it has proved.
build_library() ( # WHO SOURCES
    name=sundewfrill words=()
    crates=$(crates_needed "$name")
    # no link stays in the repository, where rt ci takes none
    work=$(mktemp -d) || exit 3
    trap 'rm -rf "$work"' EXIT
    # in rt's own order
    for crate in $(LC_ALL=C sort <<<"$crates"); do hold "$1" "$root/crates/$crate" || exit; done
    for crate in $(sed -n "s/#.*//; s/^$name [^:]*://p" "$root/crates.txt"); do words+=(--extern "$crate=$root/crates/$crate/out/rlib/$crate.rlib"); done
    for crate in $crates; do [ "$crate" = "$name" ] || words+=(-L "dependency=$root/crates/$crate/out/rlib"); done
    echo "$1: building the library's archive" >&2
    mkdir -p "$root/target/staticlib" "$root/crates/$name/out" && mirror_tools "$work/tools" "$work/module.bc" || exit
    shown_rt "$1" '' "$name" "$kit/bin/rattle" build --crate-name "$name" src/lib.rt --crate-type staticlib --links "$name=" \
        --extern "std=$kit/rlibs/std.rlib" -L "dependency=$kit/rlibs" "${words[@]}" \
        --antt-project "$kit/rattle/logic/antt-project.json" --logic-built "$kit/logic_built" --incremental out/incremental \
        --backend llvm --toolchain "$work/tools" -o "$work/archive.a" || exit
    cd "$root/target" && cp "$work/archive.a" "${MADE_LIBRARY[0]}" && cp "$work/module.bc" "${MADE_LIBRARY[1]}" && record library "$2" "${MADE_LIBRARY[@]}"
)

# Proves the library and builds its archive; unless they are there, made of what stands here now.
make_library() { # WHO
    local now crates
    now=$(sources)
    ! unchanged library "$now" "${MADE_LIBRARY[@]}" || return 0
    crates=$(crates_needed sundewfrill)
    tell_of_first "$1" "$crates"
    shown_rt "$1" "$crates" sundewfrill rt check && build_library "$1" "$now"
}

library() { # WHO
    alone "$1" make_library "$1"
}

# What rt ci has just proved of these sources, if they still stand here: the programs as it built them, and the archive over the libraries as it built
# them. A library with a stamp is of an earlier run, and was put back; then the archive is left to who needs it.
take_proved() { # WHO SOURCES
    local crate
    [ "$(sources)" = "$2" ] && take_programs "$2" || return
    for crate in $(crates_needed sundewfrill); do [ ! -e "crates/$crate/out/rlib/stamp" ] || return 0; done
    build_library "$1" "$2"
}
