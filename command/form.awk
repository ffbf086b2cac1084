# The form of the code in the variable CODE as docs/CODES.md has it, of the heading with most of the code's letters; or, where no heading has them, the codes
# that begin with its first letter, or all.
BEGIN { code = toupper(ENVIRON["CODE"]) }

/^## / { codes = ($0 == "## The codes") }

codes && /^### `/ {
    name = $0
    sub(/^### `/, "", name)
    sub(/`.*/, "", name)
    names = names " " name
    if (substr(name, 1, 1) == substr(code, 1, 1)) alike = alike " " name
    better = index(code, name) == 1 && length(name) > length(best)
    if (better) best = name
}

# the heading's own paragraph, joined to one line
codes && better && /^- \*\*Form:\*\* / { form = substr($0, 13); reading = 1; next }
reading && /^  / { form = form substr($0, 2); next }
{ reading = 0 }

END {
    if (best != "") print best " is written " form
    else print "no code is written so; " (alike == "" ? "the codes are" names : "those with this letter are" alike)
}
