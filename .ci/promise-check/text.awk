# Items, comments and words, as the checks read them.

# ---- what is collected
#
# An item is a function or a constant of src/, a definition of specs/ or a proof of Determined.antt: a number,
# with kind, crate_of, path_of, name_of and its lines first[] to last[]. items_in[path] lists those of a file.
# raw[path, n] is a line as it stands. defined[path, name] lists the definitions of that name in a file of specs/,
# and defined_in_crate[crate, name] those of all its files.

function new_item(what, name) {
    items++
    kind[items] = what
    crate_of[items] = crate
    path_of[items] = path
    name_of[items] = name
    first[items] = line_no
    last[items] = line_no
    items_in[path] = items_in[path] " " items
    return items
}

function read_file(    n, line) {
    n = 0
    while ((getline line < path) > 0) raw[path, ++n] = line
    close(path)
    lines_in[path] = n
    return n
}

# ---- comments and quoted text

# A line without them. Both may go on over lines, so in_block and in_text outlive the call.
function strip(line, lang,    out, what) {
    if (!in_block && !in_text && line !~ plain_but[lang]) return line
    out = ""
    while (line != "") {
        if (in_block) { line = past_block(line, lang); continue }
        if (in_text) { line = past_text(line); continue }
        if (!match(line, opening[lang])) return out line
        what = substr(line, RSTART, RLENGTH)
        out = out substr(line, 1, RSTART - 1)
        line = substr(line, RSTART + RLENGTH)
        if (what == "//" || (what == "--" && stands_alone(out, line))) return out
        if (what == "--") out = out what
        else if (what == "\"") in_text = 1
        else if (what == "/*" || what == "{-") in_block = 1
        else out = out " "
    }
    return out
}

# a--b is a name of antt, and so is ----
function stands_alone(before, after) { return before ~ /(^|[ \t])$/ && after ~ /^([ \t]|$)/ }

function past_block(line, lang) {
    if (!match(line, block_edge[lang])) return ""
    if (substr(line, RSTART, RLENGTH) ~ /^[\/{]/) in_block++; else in_block--
    return substr(line, RSTART + RLENGTH)
}

function past_text(line) {
    if (!match(line, /\\.|"/)) return ""
    if (substr(line, RSTART, 1) == "\"") in_text = 0
    return substr(line, RSTART + RLENGTH)
}

# ---- names of antt

# The names of a term, in order, a path as one: M.has, and so a field: r.taken. The field of a term, as in `(g x).taken`, names no
# definition, and the dot of `λ r. ` belongs to no name.
function antt_words(text, word) {
    gsub(/[ \t()](\.[^ \t(){}.;,@"]+)+/, " ", text)
    gsub(/\.[ \t]/, " ", text)
    gsub(/[(){};,@"]/, " ", text)
    gsub(/«|»|⌜|⌝/, " ", text)
    return split(text, word, " ")
}
