# shellcheck shell=bash
# For ../console, which sources it: what a learner probably meant. Nothing is guessed that the proved programs cannot read; where they would still refuse it,
# for its entries, that is said.

# The refusal of a code string, 0 for none, by the check.
verdict() { # STRING
    refusal_of "$(ask c "$1")"
}

# Whether codes can be read, be the entries of an F code right or not.
readable() { # STRING
    [[ $(verdict "$1") =~ ^(0|7|18)$ ]]
}

# The refusal of an A code.
formula_verdict() { # CODE
    local line
    line=$(typed "$1" | run formula)
    printf '%s\n' "${line%% *}"
}

# Three numbers, of whatever size.
is_address() { # WORD
    [[ $1 =~ ^[0-9]+,[0-9]+,[0-9]+$ ]]
}

# Whether this is one D code: a code that is none is refused with 6, whatever the text.
date_verdict() { # CODE
    local number
    number=$(refusal_of "$(ask d "$1" '')")
    [ "$number" != 12 ] || number=0
    printf '%s\n' "$number"
}

# The first way to mend a code that a program can read, if there is one, behind the refusal that it then has, 0 for none. Ways behind it read more into a
# code than was typed: they would hide entries that are left over in a literal.
mend() { # VERDICT-COMMAND CODE
    local way number
    while IFS= read -r way; do
        number=$("$1" "$way")
        if [ "$number" != 6 ]; then
            printf '%s %s\n' "$number" "$way"
            return 0
        fi
    done < <(printf '%s\n' "$2" | awk -f "$root/command/mended.awk")
    return 1
}

# What is added to a guess that is refused all the same.
refused_then() { # STOP REFUSAL
    [ "$2" = 0 ] || printf '%s It is then refused with %s' "$1" "$2"
}

guess_mended() { # VERDICT-COMMAND CODE
    local way
    way=$(mend "$@") || return
    say "did you mean $(quoted "${way#* }")?$(refused_then '' "${way%% *}")"
}

guess_code() { # CODE RECORD
    if [ -z "${1// /}" ]; then
        say 'the code is empty'
    elif [ "$1" = F ]; then
        say "F is followed by ; and its elms: did the shell cut the code at the ; ? Put it in quotes: 'F;1;2;+'"
    elif [[ $1 == *^* ]] && [ -n "$2" ] && readable "${2^^}"; then
        say 'did you mean the record and the code the other way round? ADDRESS RECORD CODE is their order'
    else
        guess_several "$1" || guess_mended verdict "$1" || guess_algebra "$1" || guess_unread "$1"
    fi
}

# Several codes in one word, parted by something else than words are.
guess_several() { # CODE
    local between string codes word words=''
    for between in ']' ' ' ',' ';' ' ,;]'; do
        string=$(printf '%s' "$1" | tr -s "$between" '\375')
        [ "$string" != "$1" ] || continue
        # a literal keeps its small letters
        readable "$string" || [[ $1 == *[\'\"]* ]] || string=${string^^}
        readable "$string" || continue
        mapfile -t codes < <(codes_of "$string")
        for word in "${codes[@]}"; do words="$words $(quoted "$word")"; done
        say "several codes are several words:$words$(refused_then . "$(verdict "$string")")"
        return 0
    done
    return 1
}

# An A code in a code's place.
guess_algebra() { # CODE
    local way="0 $1"
    [[ $1 == [Aa]* ]] || return 1
    [ "$(formula_verdict "$1")" = 0 ] || way=$(mend formula_verdict "$1") || return 1
    [ "${way%% *}" = 0 ] || return 1
    say "this is an A code: ./console algebra $(quoted "${way#* }") shows the F code that it stands for"
}

# Of a code that cannot be read, where F's elms go wrong, or the form that its letters have in the reference.
guess_unread() { # CODE
    case $1 in
    F\;*) guess_elm 6 "$1" ;;
    *) say "$(CODE=$1 awk -f "$root/command/form.awk" "$root/docs/CODES.md")" ;;
    esac
}

# The elm at which an F code goes wrong, by the check of its fronts, each cut at a `;`: the stack at the first one that is refused with 7, the grammar
# behind the longest one that is not refused with 6.
guess_elm() { # NUMBER CODE
    local good='F;' front='F;' elm number tried=0 rest=${2#F;}\;
    elm=${rest%%;*}
    while [ -n "$rest" ]; do
        [ $((tried += 1)) -le "$TRIED" ] || return
        front=$front${rest%%;*} rest=${rest#*;}
        number=$(verdict "$front")
        if [ "$1" = 7 ] && [ "$number" = 7 ]; then
            elm=${front#"$good"}
            break
        fi
        front=$front\;
        if [ "$number" != 6 ]; then
            good=$front elm=${rest%%;*}
        fi
    done
    if [ -z "$elm" ]; then
        say "an elm is missing at byte $((${#good} + 1)) of the code"
    else
        say "it goes wrong at byte $((${#good} + 1)) of the code, at the elm $(shown "$elm")"
    fi
}

guess_formula() { # CODE
    if is_address "$1"; then
        say 'did you mean it as an address? The A code comes first: ./console algebra CODE ADDRESS RECORD'
    elif [ "$(verdict "$1")" = 0 ]; then
        say 'this is no A code, but a code that can be run as it is'
    else
        guess_mended formula_verdict "$1"
    fi
}

# Numbers parted by something else, or fewer than three, or three words; what is not refused for its address is offered.
guess_address() { # ADDRESS STRING RECORD
    local address record=${3%,} code=${2%%$'\375'*}
    address=$(printf '%s' "$1" | tr -d '\r' | tr -s ' .;:/' ,)
    address=${address#,} address=${address%,}
    case $address in
    *[!0-9,]* | '') about_word "$1" && return ;;
    *,*,*) ;;
    *,*) address=$address,0 ;;
    *) [[ $record =~ ^[0-9]+$ && $code =~ ^[0-9]+$ ]] && address=$address,$record,$code || address=$address,0,0 ;;
    esac
    [ "$(refusal_of "$(ask f "$address" '')")" = 4 ] || say "did you mean $(shown "$address")?"
}

# A word in the address's place that may have been meant as a call.
about_word() { # ADDRESS
    [ "$1" != "${first_word-}" ] || [[ ! $1 =~ ^[A-Za-z]+$ ]] || say 'nor is it one of the words check, find, replace, date, ceiling, algebra'
}

# The code and the date the other way round, or a code that can be mended.
guess_date_code() { # CODE TEXT
    if [ "$(date_verdict "$2")" = 0 ]; then
        say 'did you mean the code and the date the other way round? CODE TEXT is their order'
    else
        guess_mended date_verdict "$1"
    fi
}

# What a date typed for this code looks like: day 0 as the code shows it, with a year of four digits for one that nobody can type.
guess_date() { # CODE
    local day code=$1
    case $1 in
    D0*) say 'a code without a year, n = 0, reads no date' && return ;;
    D[13]*) code=D4${1:2} ;;
    esac
    day=$(printf '%s\n0,0,0\n0\n' "$code" | run console)
    say "a date typed for $(shown "$1") looks like $(shown "${day#0 * }"), and stands in the calendar"
}
