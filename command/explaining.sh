# shellcheck shell=bash
# For ../console, which sources it: a refusal in words, on standard error. The sentences are those of docs/REFUSALS.md.

# How much of a text is shown.
SHOWN=60
# "code string 512", "any element .. 1,024", "a 0 to 999; v and s 0 to 32,768", "stack 16 entries"
STRING_MOST=512 ELEMENT_MOST=1024 ATTRIBUTE_MOST=999 VALUE_MOST=32768 ENTRIES_MOST=16

# Marks as they are drawn.
drawn() { printf '%s' "$1" | tr '\374\375\376' '\\]^'; }

# A text as a line can have it: marks drawn, and bytes that are no text as question marks.
plain() { # TEXT
    local text
    text=$(drawn "$1" | tr '\000-\037\177\373\377' '?')
    printf '%s' "$text" | iconv -f UTF-8 -t UTF-8 >/dev/null 2>&1 || text=$(printf '%s' "$text" | tr '\200-\377' '?')
    printf '%s' "$text"
}

# The same in backticks; a long one is cut, and not within a letter.
shown() { # TEXT
    local text
    text=$(plain "$1")
    [ ${#text} -le "$SHOWN" ] || text=$(printf '%s' "${text:0:SHOWN}" | iconv -c -f UTF-8 -t UTF-8 2>/dev/null)...
    # shellcheck disable=SC2016
    printf '`%s`' "$text"
}

# A word as it can be typed in a shell.
quoted() { # WORD
    local word
    word=$(plain "$1")
    case $word in
    *\'*[\"\$\`\\!]* | *[\"\$\`\\!]*\'*) printf '%q' "$word" ;;
    *\'*) printf '"%s"' "$word" ;;
    *) printf "'%s'" "$word" ;;
    esac
}

# A cell of the table: column 3 says when the refusal is given, column 4 what a learner should do.
sentence() { # NUMBER COLUMN
    awk -F ' *[|] *' -v number="$1" -v column="$2" '$2 == number { print $column }' "$root/docs/REFUSALS.md"
}

# Says why, what is known of this one, and what to do, and ends with status 1; returns where there is no refusal.
explain() { # NUMBER WHAT-SAYS-MORE WORDS...
    case $1 in
    0) return 0 ;;
    '' | *[!0-9]*) failed 'no answer came: temporary files cannot be written, perhaps' ;;
    esac
    say "refusal $1: $(sentence "$1" 3)"
    "${@:2}" "$1"
    say "$(sentence "$1" 4)"
    exit 1
}

# What is known of a refusal of a call on an address, a code string and a record.
about_call() { # ADDRESS STRING RECORD NUMBER, the record's marks raw or drawn
    case $4 in
    4) about_address "$@" ;;
    5) about_length "$2" ;;
    6 | 7 | 18) about_code "$2" "$(drawn "$3")" "$4" ;;
    9 | 1[0-4]) about_element "$@" ;;
    esac
}

# The same of document 01's three lines. A zero byte is no part of any word of the shell's; the programs take byte 1 as they take it.
about_lines() { # NUMBER
    local code='' address='' record=''
    { IFS= read -r code && IFS= read -r address && IFS= read -r record; } < <(tr '\000' '\001' <"$work/lines")
    about_call "$address" "$code" "$record" "$1"
}

# The codes of a string, one a line.
codes_of() { printf '%s\n' "$1" | tr '\375' '\n'; }

# So many bytes.
bytes() { # NUMBER
    [ "$1" -eq 1 ] && printf '1 byte' || printf '%s bytes' "$1"
}

# Which code it is, where it begins in the string, and its text.
say_code() { # NUMBER CODES...
    local number=$1 place=1 code
    shift
    for code in "${@:1:number-1}"; do place=$((place + ${#code} + 1)); done
    say "code $number of $#, at byte $place of the code string: $(shown "${!number}")"
}

# Of a string that is too long, the code in which it passes the limit.
about_length() { # STRING
    local codes number=1 place=0
    mapfile -t codes < <(codes_of "$1")
    say "the code string has $(bytes ${#1})"
    # a code that ends with the last byte allowed is within the limit, the mark behind it is not
    while place=$((place + ${#codes[number - 1]} + 1)) && [ "$place" -le $((STRING_MOST + 1)) ]; do number=$((number + 1)); done
    say_code "$number" "${codes[@]}"
}

# The first bad code, by the check, and what was probably meant, or what it leaves over.
about_code() { # STRING RECORD NUMBER
    local codes verdict number
    mapfile -t codes < <(codes_of "$1")
    verdict=$(ask c "$1")
    number=${verdict##* = }
    [[ $number =~ ^[1-9][0-9]*$ ]] || return
    say_code "$number" "${codes[@]}"
    case $3 in
    7) guess_elm 7 "${codes[number - 1]}" ;;
    18) about_entries "${codes[number - 1]}" ;;
    *) guess_code "${codes[number - 1]}" "$2" ;;
    esac
}

# How many entries an F code leaves, by the check: one more than the `:` that make one of them; nothing is said where these make the code too long.
about_entries() { # CODE
    local closed=$1 entries=1 number=18
    while [ "$number" = 18 ] && [ $((entries += 1)) -le "$ENTRIES_MOST" ]; do
        closed=$closed\;:
        number=$(verdict "$closed")
    done
    [ "$number" != 0 ] || say "$entries entries are left at the end: $((entries - 1)) too many"
}

# What is no address, and what was probably meant; or what is wrong with one.
about_address() { # ADDRESS STRING RECORD
    local a=${1%%,*} v=${1#*,} s=${1##*,}
    v=${v%,*}
    if [[ ! $1 =~ ^[0-9]{1,5},[0-9]{1,5},[0-9]{1,5}$ ]]; then
        say "the address is $(shown "$1"), not three numbers of 1 to 5 digits parted by commas"
        guess_address "$@"
    elif [ "$a" -eq 0 ]; then
        say 'the id, which is attribute 0, has no values: its address is `0,0,0`'
    elif [ "$a" -gt "$ATTRIBUTE_MOST" ]; then
        say "attribute $a is over $ATTRIBUTE_MOST"
    elif [ "$v" -gt "$VALUE_MOST" ] || [ "$s" -gt "$VALUE_MOST" ]; then
        say "the value or the subvalue is over $VALUE_MOST"
    else
        say "subvalue $s stands in no value: did you mean \`$a,1,$s\`?"
    fi
}

# What is known of a refusal of replacing.
about_new() { # ADDRESS NEW NUMBER
    case $3 in
    4) about_address "$1" '' '' ;;
    9) say "the new element has $(bytes ${#2}): $(shown "$2")" ;;
    17) say "the new element is $(shown "$2"): ^ ] and \\ are marks there" ;;
    esac
}

# What is known of a typed date's refusal.
about_date() { # CODE TEXT NUMBER
    case $3 in
    5) about_length "$1" ;;
    6) say "the code is $(shown "$1"), not one D code" && guess_date_code "$1" "$2" ;;
    12) guess_date "$1" ;;
    esac
}

# What is known of an A code's refusal.
about_formula() { # CODE NUMBER
    say "the A code has $(bytes ${#1}): $(shown "$1")"
    case $2 in
    5) [ ${#1} -gt "$STRING_MOST" ] || say "its F text would have more than $STRING_MOST" ;;
    6) guess_formula "$1" ;;
    esac
}
