# shellcheck shell=bash
# For ../console, which sources it: the proved programs run, what they are given, and what goes out.

# "only 65,536 bytes are read"
READS=65536
# More words than anybody types: a call that takes any number of codes has no other limit.
MANY=1000000

say() { printf 'console: %s\n' "$1" >&2; }

failed() { # WHY
    say "$1"
    exit 3
}

work=$(mktemp -d 2>/dev/null) && work=$(cd -- "$work" && pwd) || failed 'no folder for temporary files can be made'
trap 'rm -rf "$work"' EXIT

help() {
    cat "$root/command/help" 2>/dev/null || failed 'standard output cannot be written'
    exit 0
}

# How a call is typed, as the help has it.
form_of() { # CALL
    awk -v call="$1" '$1 == "./console" && $2 == call { sub(/^ */, ""); sub(/   .*/, ""); print; exit }' "$root/command/help"
}

# Proves and builds the programs, unless they are there and nothing has changed since.
prepare() {
    find_kit || failed "the Rattle kit's command rt is not on the PATH, or not all of the kit is there"
    programs console || failed 'the programs could not be proved and built'
}

# Runs a proved program; what it says or how it ends is not the learner's to read.
run() { # PROGRAM
    local words
    mapfile -t words < <(command_of "$1")
    "${words[@]}" 2>/dev/null || failed "the program $1 could not be run"
}

# Lines for a program: a word as it is, a word with its marks drawn, and codes parted by byte 253. A line end ends the record.
typed() { printf '%s\n' "$1"; }
marked() { printf '%s\n' "${1%%$'\n'*}" | tr '^]\\' '\376\375\374'; }
joined() {
    local code between=''
    for code in "$@"; do
        printf '%b%s' "$between" "$code"
        between='\0375'
    done
    echo
}

# Keeps what a program is to read, or has written.
keep() { # FILE
    cat 2>/dev/null >"$work/$1" || failed 'temporary files cannot be written'
}

# Keeps what a command writes; ends where one of the two has failed, and has said why.
kept() { # FILE COMMAND...
    "${@:2}" | keep "$1"
    [ "${PIPESTATUS[*]}" = '0 0' ] || exit 3
}

# Asks the program behind the calls by words: the call's letter, and its words.
ask() { # LETTER WORDS...
    printf '%s\n' "$@" | run words
}

# Sends out the answer.
put() { cat "$work/answer" 2>/dev/null || failed 'standard output cannot be written'; }

# The refusal that the answer of a call by words names.
refusal_of() { # LINE
    local number=${1#refusal = }
    printf '%s\n' "${number%%,*}"
}
