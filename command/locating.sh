# shellcheck shell=bash
# For ../console, which sources it: at which element and which code a run was refused, by running elements and codes one at a time.

# No more elements than this are tried, nor elms of an F code: each is a run of a program.
TRIED=100

# Document 01's line of three lines; a zero byte, which MY can give, has no place in the shell's words.
line_of() { # STRING ADDRESS RECORD
    printf '%s\n' "$@" | run console | tr -d '\000'
}

run_refusal() { # STRING ADDRESS RECORD
    local line
    line=$(line_of "$@")
    printf '%s\n' "${line%% *}"
}

# The elements at an address, one a line, each behind its place and a blank; nothing of a place that is missing. The part is cut out of the record itself: in
# what is shown of it a mark could not be told from a plain byte that looks the same.
elements_of() { # ADDRESS RECORD
    local found
    found=$(ask f "$@")
    [[ $found =~ ^'refusal = 0, found = 1, start = '([0-9]+)', length = '([0-9]+) ]] || return
    printf '%s\n' "${2:BASH_REMATCH[1]:BASH_REMATCH[2]}" | awk -v address="$1" -f "$root/command/elements.awk"
}

# The first element that is refused so by itself, and the code at which it is; an element that is too long is refused before any code.
about_element() { # ADDRESS STRING RECORD NUMBER
    local line place element tried=0
    while IFS= read -r line && [ $((tried += 1)) -le "$TRIED" ]; do
        place=${line%% *} element=${line#* }
        if [ "$(run_refusal "$2" "$place" "$3")" = "$4" ]; then
            say "it is the element at $place, of $(bytes ${#element}): $(shown "$element")"
            [ ${#element} -gt "$ELEMENT_MOST" ] || about_turn "$place" "${@:2}"
            return
        fi
    done < <(elements_of "$1" "$3")
}

# The first code behind which it is refused, and what it was given by the codes before it.
about_turn() { # PLACE STRING RECORD NUMBER
    local codes number=0 line
    mapfile -t codes < <(codes_of "$2")
    while [ $((number += 1)) -le ${#codes[@]} ]; do
        if [ "$(run_refusal "$(joined "${codes[@]:0:number}")" "$1" "$3")" = "$4" ]; then
            say_code "$number" "${codes[@]}"
            [ "$number" -gt 1 ] || return
            line=$(line_of "$(joined "${codes[@]:0:number-1}")" "$1" "$3")
            say "it was given $(shown "${line#* * }")"
            return
        fi
    done
}
