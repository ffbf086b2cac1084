# A code on standard input; out come ways in which it may have been meant, one a line: each slip mended by itself, and last all of them.

# How many places are tried at which a quote or a parenthesis may be missing.
BEGIN { NEAR = 3 }

# Offers a way once, if it is another one than what was typed.
function offer(text) {
    if (text != "" && text != typed && !(text in offered)) print text
    offered[text]
}

# What stands outside quotes, by the slip's own rule; what is quoted stays.
function outside(text, slip,    i, c, quote, out) {
    for (i = 1; i <= length(text); i++) {
        c = substr(text, i, 1)
        if (quote != "") {
            if (c == quote) quote = ""
        } else if (c == "'" || c == "\"") {
            quote = c
        } else if (slip == "capitals") {
            c = toupper(c)
        } else if (slip == "commas") {
            if (c == ",") c = ";"
        } else if (c ~ /[ \t\r]/) {
            c = ""
        }
        out = out c
    }
    return out
}

# Quotes of a word processor.
function plain_quotes(text) {
    gsub(/\342\200[\230\231]/, "'", text)
    gsub(/\342\200[\234\235]/, "\"", text)
    return text
}

# A code with quotes round it that the shell left there.
function unquoted(text) {
    if (text ~ /^'.*'$/ || text ~ /^".*"$/) return substr(text, 2, length(text) - 2)
    return text
}

# `F1;2`, `FS;1;2` and `F,1,2` for `F;1;2`, a `;` at the end, `A;1` for `A1`, and the other stroke.
function parted(text) {
    if (text ~ /^F,/) text = outside(text, "commas")
    sub(/^FS;/, "F;", text)
    sub(/^F[0-9'"]/, "F;" substr(text, 2, 1), text)
    sub(/;+$/, "", text)
    sub(/^A;/, "A", text)
    sub(/^MC\\/, "MC/", text)
    return text
}

# Relations of two bytes: F has one byte for each, an A code its own order.
function related(text) {
    if (text ~ /^F/) {
        gsub(/;(>=|=>)/, ";]", text)
        gsub(/;(<=|=<)/, ";[", text)
        gsub(/;(<>|><|!=)/, ";#", text)
        gsub(/;==/, ";=", text)
    } else {
        gsub(/=>/, ">=", text)
        gsub(/=</, "<=", text)
        gsub(/<>|><|!=/, "#", text)
        gsub(/==/, "=", text)
    }
    return text
}

# In F a code stands in parentheses.
function wrapped(text,    i, n, elm, out) {
    if (text !~ /^F;/) return text
    n = split(text, elm, ";")
    out = elm[1]
    for (i = 2; i <= n; i++) {
        if (elm[i] ~ /^([GTD].*|L[0-9,]*|M[CLRXY].*|P\(.*)$/) elm[i] = "(" elm[i] ")"
        out = out ";" elm[i]
    }
    return out
}

# Where the last quote or parenthesis stands that nothing closes, in open, and what would close it, in closing; 0 where there is none.
function find_open(text,    i, c, quote, depth) {
    open = 0
    for (i = 1; i <= length(text); i++) {
        c = substr(text, i, 1)
        if (quote != "") {
            if (c == quote) quote = ""
        } else if (c == "'" || c == "\"") {
            quote = c
            open = i
        } else if (c == "(") {
            depth++
            if (depth == 1) open_parenthesis = i
        } else if (c == ")") {
            depth--
        }
    }
    closing = quote == "" ? ")" : quote
    if (quote == "") open = depth > 0 ? open_parenthesis : 0
}

# Offers what closes it in front of each of the next few signs that may stand behind it, and at the end; and a quote that would open it behind the `;` before it.
function offer_closed(text,    i, signs, tried) {
    find_open(text)
    if (open == 0) return
    # an expression in parentheses may hold any sign
    if (text ~ /^[Aa]/ && closing == ")") offer(text closing)
    signs = text ~ /^[Aa]/ ? "[-+*\\/:=#<>,)\\]]" : ";"
    for (i = open + 1; i <= length(text) && tried < NEAR; i++)
        if (substr(text, i, 1) ~ signs) { tried++; offer(substr(text, 1, i - 1) closing substr(text, i)) }
    offer(text closing)
    for (i = open; closing != ")" && i > 0 && tried < 2 * NEAR; i--)
        if (substr(text, i, 1) == ";") { tried++; offer(substr(text, 1, i) closing substr(text, i + 1)) }
}

{
    typed = $0
    offer(toupper(substr($0, 1, 1)) substr($0, 2))
    offer(outside($0, "capitals"))
    offer(outside($0, "blanks"))
    offer(plain_quotes($0))
    offer(parted($0))
    offer(related($0))
    offer(unquoted($0))
    offer(wrapped($0))
    offer_closed($0)
    offer("A" $0)
    all = wrapped(related(parted(outside(outside(unquoted(plain_quotes($0)), "blanks"), "capitals"))))
    offer(all)
    offer_closed(all)
    exit
}
