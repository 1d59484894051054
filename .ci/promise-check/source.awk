# Files of src/: functions, their clauses and what they name.

# ---- source files

function scan_source(    n) {
    n = read_file()
    in_block = in_text = depth = 0
    use_line = ""
    to_items()
    modules[0] = file_modules()
    type_at[0] = ""
    for (line_no = 1; line_no <= n; line_no++) source_line(strip(raw[path, line_no], "rt"))
}

# The modules that a file stands for: src/lib.rt none, src/a/b.rt and src/a/b/mod.rt ::a::b.
function file_modules(    name, part, n, i, list) {
    name = path
    sub(/^crates\/[^\/]*\/src\//, "", name)
    sub(/\.rt$/, "", name)
    if (name == "lib" || name == "main") return ""
    sub(/\/mod$/, "", name)
    n = split(name, part, "/")
    for (i = 1; i <= n; i++) {
        list = list "::" part[i]
        is_module[crate, part[i]] = 1
    }
    return list
}

function source_line(line,    token, gap) {
    if (use_line != "" || line ~ /^[ \t]*(pub )?ghost use /) source_use(line)
    while (match(line, /[A-Za-z_][A-Za-z0-9_]*|[0-9][A-Za-z0-9_]*|::|[][{}()<>;#.]/)) {
        gap = substr(line, 1, RSTART - 1)
        token = substr(line, RSTART, RLENGTH)
        line = substr(line, RSTART + RLENGTH)
        if (state == "clause") clause = clause gap
        if (state == "signature" && open_item) signature_text[open_item] = signature_text[open_item] gap
        if (gap ~ /[^ \t]/) before = before2 = before3 = ""
        take(token)
        before3 = before2
        before2 = before
        before = token
    }
    if (state == "clause") clause = clause line " "
    if (state == "signature" && open_item) signature_text[open_item] = signature_text[open_item] line " "
}

function source_use(line) {
    use_line = use_line " " line
    if (line !~ /;/) return
    note_use(use_line)
    use_line = ""
}

function take(token) {
    if (state == "body") body_token(token)
    else if (state == "items") item_token(token)
    else if (state == "constant") constant_token(token)
    else if (state == "signature") signature_token(token)
    else if (state == "clause") clause_token(token)
    else if (state == "head") head_token(token)
    else skip_token(token)
}

function to(new_state) { state = new_state; nest = 0 }

function to_items() { to("items"); is_pub = 0 }

function nesting(token) {
    if (token ~ /^[[({]$/) nest++
    else if (token ~ /^[])}]$/) nest--
}

function item_token(token) {
    if (token == "fn") begin_function()
    else if (token == "pub") is_pub = 1
    else if (token == "(" && before == "pub") is_pub = 0
    else if (token ~ /^(const|static)$/) begin_constant()
    else if (token ~ /^(impl|mod)$/) begin_head(token)
    else if (token ~ /^(struct|enum|union|trait|type|use)$/) to("skip")
    else if (token == "#") to("attribute")
    else if (token == "{") { to("skip"); nest = 1 }
    else if (token == "}" && depth > 0) { depth--; to_items() }
    else if (token == ";") is_pub = 0
}

# An item that holds no function, or an attribute.
function skip_token(token) {
    nesting(token)
    if (nest > 0) return
    if (state == "attribute") { if (token == "]") state = "items" }
    else if (token == "}" || token == ";") to_items()
}

function begin_head(word) {
    to("head")
    head = word
    head_name = ""
    angles = 0
}

# `mod name`, `impl<..> Type<..>` or `impl Trait for Type`, up to the brace.
function head_token(token) {
    if (token == "<") angles++
    else if (token == ">") angles--
    else if (token == "for") head_name = ""
    else if (token == "where") angles = 1
    else if (token == "{" || token == ";") end_head(token)
    else if (token ~ /^[A-Za-z_]/ && angles == 0) head_name = token
}

function end_head(token) {
    if (head == "mod") {
        is_module[crate, head_name] = 1
        if (is_pub) is_pub_module[crate, head_name] = 1
    } else is_type[crate, head_name] = 1
    if (token == "{") {
        depth++
        modules[depth] = modules[depth - 1] (head == "mod" ? "::" head_name : "")
        type_at[depth] = head == "impl" ? head_name : ""
    }
    to_items()
}

function begin_constant() {
    to("constant")
    open_item = 0
}

function constant_token(token) {
    if (token == "fn") { begin_function(); return }
    nesting(token)
    if (!open_item && token ~ /^[A-Za-z_]/ && token != "mut") {
        open_item = new_source_item("constant", token)
    } else note_word(token)
    if (open_item) last[open_item] = line_no
    if (token == ";" && nest == 0) to_items()
}

function begin_function() {
    to("signature")
    open_item = 0
    clause_word = ""
}

function name_function(token) {
    open_item = new_source_item("function", token)
    public[open_item] = is_pub
    last[open_item] = lines_in[path]
    functions[++function_count] = open_item
}

function new_source_item(what, name,    item) {
    item = new_item(what, name)
    modules_of[item] = modules[depth]
    type_of[item] = type_at[depth]
    named[crate, what, name] = named[crate, what, name] " " item
    if (type_of[item] == "") is_at_home[crate, what, modules_of[item], name] = 1
    return item
}

# The clauses stand between the parameters and the body: a brace that follows no word of theirs opens the body.
function signature_token(token) {
    if (!open_item) { name_function(token); return }
    if (nest == 0 && token ~ /^(ghost|requires|ensures)$/) clause_word = token
    else if (nest == 0 && token == "{") begin_braces()
    else if (nest == 0 && token == ";") { last[open_item] = line_no; to_items() }
    else {
        nesting(token)
        note_word(token)
        signature_text[open_item] = signature_text[open_item] token
    }
}

function begin_braces() {
    to(clause_word == "" ? "body" : "clause")
    nest = 1
    clause = ""
}

function clause_token(token) {
    nesting(token)
    clause = clause token
    if (nest > 0) return
    has_clause[open_item, clause_word] = 1
    if (clause_word == "ensures") {
        ensures[open_item] = ensures[open_item] " " clause
        ensures_count[open_item]++
    }
    clause_word = ""
    to("signature")
}

function body_token(token) {
    nesting(token)
    if (token == "(" && before ~ /^[A-Za-z_]/) note_call()
    else note_word(token)
    if (nest > 0) return
    last[open_item] = line_no
    to_items()
}

# f(..), q::f(..) or x.f(..)
function note_call(    by) {
    if (before2 == "::") by = before3
    else if (before2 == ".") by = before3 == "self" ? "Self" : "."
    note_mention("function", by, before)
}

function note_word(token) {
    if (token ~ /^[A-Za-z_]/ && before != ".") note_mention("constant", before == "::" ? before2 : "", token)
}

function note_mention(what, by, name) {
    if ((open_item, what, by, name) in has_mention) return
    has_mention[open_item, what, by, name] = 1
    mentions[open_item] = mentions[open_item] " " what "/" by "/" name
}
