# What each file imports and which words it has.

# ---- imports

# import_*[i]: the file, its line, the word that the file has for it, the name and the module that it stands for; where a whole
# module is imported, the name is "". imported[path, word] is the number of the import.
function new_import(name, module, alias,    part, n, i) {
    imports++
    import_path[imports] = path
    import_line[imports] = line_no
    import_name[imports] = name
    import_module[imports] = module
    import_word[imports] = alias
    import_passed_on[imports] = passes_on
    n = split(alias, part, "◌")
    part[n + 1] = alias
    for (i = 1; i <= n + 1; i++) if (part[i] != "") imported[path, part[i]] = imports
}

# The last words of `use` in antt, and of `ghost use` in a source: a.b.C, a.b.C as D, a.b.{c, d as e}.
function note_use(text,    module, part, n, i, word) {
    passes_on = text ~ /^[ \t]*pub /
    sub(/^[ \t]*(pub +)?(ghost +)?use +/, "", text)
    gsub(/[;}]|«|»/, " ", text)
    if (!index(text, "{")) {
        split(text, word, " ")
        module = word[1]
        sub(/^.*\./, "", module)
        new_import("", word[1], word[2] == "as" ? word[3] : module)
        return
    }
    module = substr(text, 1, index(text, "{") - 1)
    sub(/\.[ \t]*$/, "", module)
    n = split(substr(text, index(text, "{") + 1), part, ",")
    for (i = 1; i <= n; i++) if (split(part[i], word, " ")) note_part(module, word[1], word[2] == "as" ? word[3] : "")
}

function note_part(module, name, alias) {
    if (match(name, /^.*[^.]\./)) {
        module = module "." substr(name, 1, RLENGTH - 1)
        name = substr(name, RLENGTH + 1)
    }
    new_import(name, module, alias == "" ? name : alias)
}

# `use a::b::C;` or `use a::b::{C, D as E};` of the source itself.
function note_source_use(text,    part, n, i, word) {
    passes_on = text ~ /^[ \t]*pub /
    sub(/^[ \t]*(pub +)?use +/, "", text)
    gsub(/[;}]/, " ", text)
    sub(/\{/, ",", text)
    n = split(text, part, ",")
    for (i = 1; i <= n; i++) if (part[i] !~ /::[ \t]*$/ && split(part[i], word, " ")) {
        sub(/^.*::/, "", word[1])
        new_import("", "", word[2] == "as" ? word[3] : word[1])
    }
}

# The file that a module of the house stands in, or "": Rattle.bits.specs.Board.
function file_of(module) {
    if (module !~ /^Rattle\.[a-z0-9_]+\.(specs|proofs)\./) return ""
    sub(/^Rattle\./, "", module)
    gsub(/\./, "/", module)
    return "crates/" module ".antt"
}

# ---- words

# has_word[path, word] for all but its imports; a path counts for its beginning too: R.Square has R.
function note_words(line, lang,    word, n, i) {
    n = lang == "antt" ? antt_words(line, word) : source_words(line, word)
    for (i = 1; i <= n; i++) {
        has_word[path, word[i]] = 1
        while (sub(/\.[^.]*$/, "", word[i])) has_word[path, word[i]] = 1
    }
}

# Both as a contract has them and as the code: `chess::Square` has Square.
function source_words(line, word,    code, n) {
    if (index(line, "[]")) has_word[path, "[]"] = 1
    code = line
    gsub(/[^A-Za-z0-9_]+/, " ", code)
    gsub(/[][&|:]/, " ", line)
    gsub(/[(){};,@"]|⌜|⌝/, " ", line)
    gsub(/\.[ \t]/, " ", line)
    return split(line " " code, word, " ")
}

# A file's lines that are no import. In antt the scan has told which those are.
function scan_words(lang,    line, in_use, n) {
    in_block = in_text = 0
    n = lines_in[path]
    for (line_no = 1; line_no <= n; line_no++) {
        line = strip(raw[path, line_no], lang)
        if (!in_use && line ~ /^[ \t]*(pub +)?(ghost +)?use /) { in_use = 1; use_line = "" }
        if (!in_use) note_words(line, lang)
        else if (lang == "rt") in_use = !source_use_ends(line)
        else { use_line = use_line " " line; in_use = use_line ~ /\{/ && use_line !~ /\}/ }
    }
    use_line = ""
}

function source_use_ends(line) {
    use_line = use_line " " line
    if (line !~ /;/) return 0
    if (use_line ~ /^[ \t]*(pub +)?ghost /) note_use(use_line); else note_source_use(use_line)
    return 1
}
