# Names of antt: which definition of its crate a word of a file stands for.

# The file of a module of this crate, or "" for a module of anything else.
function module_file(module) {
    if (index(module, "Rattle." crate ".specs.") != 1) return ""
    sub(/^[^.]*\.[^.]*\./, "", module)
    gsub(/\./, "/", module)
    return "crates/" crate "/" module ".antt"
}

# imported_from[path, name] and imported_as[path, name]: the file and the name that a name of this file stands for;
# module_of[path, name]: the file of a module. Two files of specs/ may define one name, and so may two crates.
function note_use(text,    module, part, n, i, word) {
    sub(/^[ \t]*(pub +)?(ghost +)?use +/, "", text)
    gsub(/[;}]|«|»/, " ", text)
    if (!index(text, "{")) { note_module(text); return }
    module = substr(text, 1, index(text, "{") - 1)
    sub(/\.[ \t]*$/, "", module)
    n = split(substr(text, index(text, "{") + 1), part, ",")
    for (i = 1; i <= n; i++) if (split(part[i], word, " ")) note_import(module, word[1], word[2] == "as" ? word[3] : "")
}

function note_module(text,    word, name) {
    split(text, word, " ")
    name = word[1]
    sub(/^.*\./, "", name)
    module_of[path, word[2] == "as" ? word[3] : name] = module_file(word[1])
}

# An operator is imported under the parts of its name, as it is defined.
function note_import(module, name, alias,    part, n, i) {
    if (match(name, /^.*\./)) {
        module = module "." substr(name, 1, RLENGTH - 1)
        name = substr(name, RLENGTH + 1)
    }
    if (alias == "") alias = name
    n = split(alias, part, "◌")
    part[n + 1] = alias
    for (i = 1; i <= n + 1; i++) if (part[i] != "") {
        imported_from[path, part[i]] = module_file(module)
        imported_from_module[path, part[i]] = module
        imported_as[path, part[i]] = name
    }
}

# The definitions of this crate that a word of a file may stand for, and in `called` the name that they were given.
# A bare word that is neither of the file nor imported is a variable.
function cited(in_crate, in_path, word) {
    called = word
    if (word ~ /[^.]\.[^.]/) return cited_by_path(in_crate, in_path, word)
    if ((in_path, word) in defined) return defined[in_path, word]
    if (!((in_path, word) in imported_as)) return ""
    called = imported_as[in_path, word]
    return cited_in(in_crate, imported_from[in_path, word], called)
}

# The steps after a name that is no module's are fields, as in `b.now` or `r.taken`.
function cited_by_path(in_crate, in_path, word,    module) {
    called = module = word
    sub(/^.*\./, "", called)
    sub(/\.[^.]*$/, "", module)
    if ((in_path, module) in module_of) return cited_in(in_crate, module_of[in_path, module], called)
    if (word ~ /^[A-Z]/) return defined_in_crate[in_crate, called]
    sub(/\..*$/, "", word)
    return cited(in_crate, in_path, word)
}

# Where the file is there without the name, another module passed it on; what is declared/ comes from the source.
function cited_in(in_crate, file, name) {
    if (file == "" || file ~ /\/specs\/declared\//) return ""
    if ((file, name) in defined) return defined[file, name]
    return defined_in_crate[in_crate, name]
}

function own_definitions(in_crate, in_path, text,    word, n, i, list) {
    n = antt_words(text, word)
    for (i = 1; i <= n; i++) list = list " " cited(in_crate, in_path, word[i])
    return list
}
