# A part of a record, its marks raw; out come its elements, one a line, each behind its place and a blank.

# An address as the element's own: what it names stays, and counting begins at 1 where it names all of them.
function place(v, s) {
    if (at[1] == 0) return "0,0,0"
    return at[1] "," (at[2] > 0 ? at[2] : v) "," (at[3] > 0 ? at[3] : s)
}

# The pieces of a text; an empty one has one, which is empty.
function pieces(text, mark, piece) {
    if (text == "") piece[1] = ""
    return text == "" ? 1 : split(text, piece, mark)
}

{
    split(address, at, ",")
    values = pieces($0, "\375", value)
    for (v = 1; v <= values; v++) {
        subvalues = pieces(value[v], "\374", subvalue)
        for (s = 1; s <= subvalues; s++) print place(v, s) " " subvalue[s]
    }
}
