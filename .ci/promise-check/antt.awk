# Files of specs/ and Determined.antt: their definitions and signatures.

# ---- antt files

# A declaration stands at column 0, or at the column of the first line in a `module _ .. where` or a `mutual`:
# what stands deeper is its continuation (a long signature, a field, a helper under `where`).
function scan_antt(what,    n, line) {
    n = read_file()
    in_block = in_text = in_header = wants_column = open_item = in_signature = 0
    columns = column[0] = 0
    use_line = ""
    for (line_no = 1; line_no <= n; line_no++) {
        line = strip(raw[path, line_no], "antt")
        if (line ~ /[^ \t]/) antt_line(line, what)
    }
}

function antt_line(line, what,    at) {
    match(line, /^ */)
    at = RLENGTH
    if (in_header) { end_header(line); return }
    if (wants_column && at > column[columns]) column[++columns] = at
    wants_column = 0
    while (at < column[columns]) columns--
    if (at == column[columns]) declaration_line(substr(line, at + 1), what)
    else if (use_line != "") gather_use(line)
    else if (open_item) add_line(line)
}

# A module may have parameters over several lines; its declarations follow the line that ends in `where`.
function end_header(line) {
    if (line !~ /(^|[ \t])where[ \t]*$/) return
    in_header = 0
    wants_column = 1
}

function gather_use(line) {
    use_line = use_line " " line
    if (use_line ~ /\{/ && use_line !~ /\}/) return
    note_use(use_line)
    use_line = ""
}

function declaration_line(line, what,    word, i, marks) {
    split(line, word, /[ \t]+/)
    use_line = ""
    for (i = 1; word[i] ~ /^(unfoldable|abbrev|pub|axiom)$/; i++) marks = marks " " word[i]
    if (word[i] ~ /^(use|mod|open|infix|infixl|infixr|ruleset|package|module|mutual)$/) other_line(line, word[i])
    else if (word[i] ~ /^(record|data)$/) declare(what, word[i + 1], marks, word[i], line)
    else if (marks != "" || line ~ /^[^ ]+( +\{[^{}:=]*\})? +:( |$)/) declare(what, word[i], marks, "", line)
    else if (open_item) clause_line(line, word[1])
}

function clause_line(line, word) {
    in_signature = 0
    in_clause = word != "unfolding"
    clauses[open_item] += in_clause
    add_line(line)
}

function other_line(line, word) {
    open_item = 0
    if (word == "use") gather_use(line)
    if (word == "mutual") wants_column = 1
    if (word == "module") { in_header = 1; end_header(line) }
}

function declare(what, name, marks, form, line) {
    sub(/[({].*/, "", name)
    gsub(/«|»/, "", name)
    open_item = new_item(what, name)
    in_signature = 1
    nested[open_item] = columns > 0
    if (what == "proof") declared[path, name] = 1
    public[open_item] = marks ~ /pub/ && marks !~ /axiom/
    form_of[open_item] = form
    if (what == "definition") define(name)
    add_line(line)
}

# An operator is cited by the parts of its name: ◌⊓◌ as ⊓.
function define(name,    part, n, i) {
    n = split(name, part, "◌")
    part[n + 1] = name
    for (i = 1; i <= n + 1; i++) if (part[i] != "" && !((open_item, part[i]) in has_name)) {
        has_name[open_item, part[i]] = 1
        defined[path, part[i]] = defined[path, part[i]] " " open_item
        defined_in_crate[crate, part[i]] = defined_in_crate[crate, part[i]] " " open_item
    }
}

function add_line(line) {
    last[open_item] = line_no
    text_of[open_item] = text_of[open_item] " " line
    if (in_signature) signature[open_item] = signature[open_item] " " line
    else if (in_clause) clause_of[open_item] = clause_of[open_item] " " line
    if (kind[open_item] == "definition" && form_of[open_item] == "data") note_constructor(line)
}

# Who names a constructor cites its type.
function note_constructor(line,    word) {
    if (split(line, word, " ") > 1 && word[2] == ":") define(word[1])
}
