# shellcheck shell=bash
# For ../console, which sources it: warnings of what is surely a slip, on standard error. They change no answer.

warn() { say "warning: $1"; }

# A line end in the record, or an address in its place.
warn_of_record() { # RECORD
    case $1 in *$'\n'*) warn 'a line end stands in the record, and what is behind it is left out' ;; esac
    ! is_address "$1" || warn "the record $(shown "$1") looks like an address: the address comes first, then the record"
}

# A record that is an id alone where an attribute is to be converted.
warn_of_elements() { # ADDRESS RECORD
    warn_of_record "$2"
    [[ ! $1 =~ ^0*[1-9][0-9]*, || $2 == *[$'\376^']* ]] ||
        warn "the record $(shown "$2") has no ^, so it is an item-id alone and has no attributes: a record begins with its id, as K1^10]20"
}

# A single code that is empty, as a variable of the shell's that was not set; and what a run loads, if there was one.
warn_of_codes() { # REFUSAL RECORD CODE...
    [ $# -ne 3 ] || [ -n "$3" ] || warn 'the code is empty, so nothing is converted'
    case $1 in
    [1-8] | 18) ;;
    *) warn_of_loads "${@:2}" ;;
    esac
}

# A code without a quote that loads what the record does not have: the shell may have taken the quotes of a constant.
warn_of_loads() { # RECORD CODE...
    local attributes number
    attributes=$(printf '%s' "$1" | tr -cd '^\376' | wc -c)
    number=$(printf '%s\n' "${@:2}" | grep -v "['\"]" | sed -n '/^A/s/[^0-9]/\n/gp; s/^F;//p' | tr ';' '\n' |
        awk -v most="$attributes" '/^[0-9][0-9]?[0-9]?R?R?$/ && $0 + 0 > most { print $0 + 0; exit }')
    [ -z "$number" ] || warn "the record has no attribute $number, so it counts as empty; if $number was a constant, the shell took its quotes: \
write \"F;1;'7';+\", not 'F;1;'7';+'"
}

# Three lines as a file has them: marks that are drawn there, and line ends of another system.
warn_of_lines() { # the lines in $work/lines
    local marks
    marks=$(tail -n +3 "$work/lines" | head -n 1 | tr -cd '^\376')
    case $marks in
    *$'\376'* | '') ;;
    *) warn 'the record has no mark: in the three lines ^ ] \ are plain text, and marks are the bytes 254, 253, 252' ;;
    esac
    ! head -n 3 "$work/lines" | grep -aq $'\r$' || warn 'a line ends with a carriage return, as in files made on Windows, and it counts as part of the line'
}

warn_of_length() { # the lines in $work/lines
    [ "$(wc -c <"$work/lines")" -le "$READS" ] || warn "code, address and record have more than $READS bytes, and the program reads no more: shorten them"
}
