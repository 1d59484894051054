# Names with two meanings, laws that nobody cites, imports that nobody uses.

# ---- who cites whom

# home[path, word]: the items that a file declares under a word, an operator under its parts too.
function settle(item,    part, n, i) {
    n = split(name_of[item], part, "◌")
    part[n + 1] = name_of[item]
    for (i = 1; i <= n + 1; i++) if (part[i] != "") home[path_of[item], part[i]] = home[path_of[item], part[i]] " " item
}

function resolve(in_path, word,    i, start) {
    if ((in_path, word) in home) return home[in_path, word]
    if ((in_path, word) in imported) {
        i = imported[in_path, word]
        return home[file_of(import_module[i]), import_name[i]]
    }
    if (word ~ /::/) word = path_of_source(in_path, word)
    if (word !~ /[^.]\.[^.]/) return ""
    start = word
    sub(/\.[^.]*$/, "", start)
    sub(/^.*\./, "", word)
    if (file_of(start) != "") return home[file_of(start), word]
    # a name of a module that is imported whole; else a field of what stands before it
    if ((in_path, start) in imported && import_name[imported[in_path, start]] == "") return home[file_of(import_module[imported[in_path, start]]), word]
    return resolve(in_path, start)
}

# crate::proofs::Words::up, as a source names a law in `using(..)`, is Rattle.bits.proofs.Words.up.
function path_of_source(in_path, word) {
    if (word !~ /^[a-z0-9_]+::(specs|proofs)::/) return ""
    gsub(/::/, ".", word)
    sub(/^crate\./, crate_in(in_path) ".", word)
    return "Rattle." word
}

# Reached from what must stand: definitions, what the prover asks for, determination, worked examples, the proof of a claim of
# specs/, what docs/ names.
function is_root(item) {
    if (kind[item] == "definition") return 1
    if (path_of[item] ~ /\/Examples\.antt$/ || crate_of[item] ~ /_examples$/) return 1
    if (!public[item]) return 0
    if (path_of[item] ~ /\/proofs\/.+\/(Answers|Invariants|Proof)\.antt$/) return is_goal(item)
    if (path_of[item] ~ /\/Determined\.antt$/) return 1
    return name_of[item] in in_docs || (crate_of[item], file_word(path_of[item])) in file_in_docs || is_claim(item)
}

# `pub returns : goal.returns`, where the module goal is one that the prover makes of a function; or a walk's `statement M`.
function is_goal(item,    word, n, start) {
    n = split(signature[item], word, " ")
    start = word[n]
    if (n > 2 && word[n - 1] == ":" && sub(/\.[^.]*$/, "", start) && (path_of[item], start) in imported)
        return import_module[imported[path_of[item], start]] ~ /\.(Goals|Given)$/
    return path_of[item] ~ /\/Proof\.antt$/ && signature[item] ~ /(^|[ (])statement( |$)/
}

function file_word(file) { sub(/^.*\//, "", file); sub(/\.antt$/, "", file); return file }

# `pub holds : Narrow`, where Narrow is a definition.
function is_claim(item,    word, n, list) {
    n = split(signature[item], word, " ")
    return n == 4 && word[3] == ":" && word[4] ~ /^[A-Z]/ && split(resolve(path_of[item], word[4]), list, " ") && kind[list[1]] == "definition"
}

function reach(item, from) {
    if (from != "" && crate_of[item] != from) cited_outside[item] = 1
    if (item in is_reached) return
    is_reached[item] = 1
    queue[++queue_end] = item
    if (!(path_of[item] in is_open)) { is_open[path_of[item]] = 1; reach_words(path_of[item], crate_of[item], header_words[path_of[item]]) }
}

function reach_words(in_path, in_crate, text,    word, n, i, list, m, j) {
    n = antt_words(text, word)
    for (i = 1; i <= n; i++) {
        m = split(resolve(in_path, word[i]), list, " ")
        for (j = 1; j <= m; j++) reach(list[j], in_crate)
    }
}

function reach_all(    i, f) {
    for (i = 1; i <= items; i++) settle(i)
    for (i = 1; i <= items; i++) if (is_root(i)) reach(i, "")
    for (f in source_words_of) reach_words(f, source_crate[f], source_words_of[f])
    while (queue_at < queue_end) {
        i = queue[++queue_at]
        reach_words(path_of[i], crate_of[i], text_of[i])
    }
}

# ---- the findings

function found(what, name, text) {
    if ((what, name) in allowed) { allowed_used[what, name] = 1; return }
    print text
    findings[what]++
    all_findings++
}

function place(item) { return path_of[item] ":" first[item] }

# A name of two crates, or of two files of one: definitions of specs/, and laws that another crate cites.
function find_twice(    i, n, names, name, bearers, list, m, j, text) {
    for (i = 1; i <= items; i++) if (public[i] && !nested[i] && (kind[i] == "definition" || i in cited_outside)) {
        name = name_of[i]
        if (!(name in bearers)) names[++n] = name
        if (index(bearers[name], "@" path_of[i] "@")) continue
        bearers[name] = bearers[name] "@" path_of[i] "@"
        list[name] = list[name] " " place(i)
    }
    for (i = 1; i <= n; i++) if ((m = split(list[names[i]], text, " ")) > 1) {
        name = names[i] ": two meanings:"
        for (j = 1; j <= m; j++) name = name " " text[j]
        found("twice", names[i], name)
    }
}

function find_uncited(    i) {
    for (i = 1; i <= items; i++) if (!(i in is_reached))
        found("uncited", crate_of[i] "/" name_of[i], place(i) ": " name_of[i] ": nobody cites it")
}

function find_unused(    i) {
    for (i = 1; i <= imports; i++) if (!import_passed_on[i] && !is_used(i))
        found("unused", crate_in(import_path[i]) "/" import_word[i], import_path[i] ":" import_line[i] ": " import_word[i] ": imported and not used")
}

function crate_in(file,    part) { split(file, part, "/"); return part[2] }

function is_used(i,    part, n, j) {
    if ((import_path[i], import_word[i]) in has_word) return 1
    n = split(import_word[i], part, "◌")
    if (n == 1) return 0
    for (j = 1; j <= n; j++) if (part[j] != "" && !((import_path[i], part[j]) in has_word)) return 0
    return 1
}

# ---- what is allowed: `twice NAME: reason`, `uncited CRATE/NAME: reason`, `unused CRATE/NAME: reason`

function read_allowed(    line, at, word) {
    while ((getline line < allowed_file) > 0) {
        if (line ~ /^[ \t]*(#|$)/) continue
        at = index(line, ": ")
        split(line, word, " ")
        sub(/:$/, "", word[2])
        if (word[1] !~ /^(twice|uncited|unused)$/ || !at || substr(line, at + 2) !~ /[A-Za-z]/) bad_line(line, "is no `twice NAME: reason`, `uncited CRATE/NAME: reason` or `unused CRATE/NAME: reason`")
        else if ((word[1], word[2]) in allowed) bad_line(line, "stands twice")
        else { allowed[word[1], word[2]] = line; allowed_list[++allowed_count] = word[1] SUBSEP word[2] }
    }
    close(allowed_file)
}

# ---- what is kept: laws that the prover once cited and now finds without, `CRATE/NAME` on a line of its own

function read_kept(    line) {
    while ((getline line < kept_file) > 0) {
        if (line ~ /^[ \t]*(#|$)/) continue
        if (line !~ /^[a-z0-9_]+\/[^ \t]+$/) bad_line(line, "is no `CRATE/NAME`")
        else if (("uncited", line) in allowed) bad_line(line, "stands twice")
        else { allowed["uncited", line] = line; allowed_list[++allowed_count] = "uncited" SUBSEP line }
    }
    close(kept_file)
}

function bad_line(line, text) { print "names: \"" line "\" " text; all_findings++ }

function find_stale(    i) {
    for (i = 1; i <= allowed_count; i++) if (!(allowed_list[i] in allowed_used)) bad_line(allowed[allowed_list[i]], "allows nothing that is there")
}

# ---- the files

function read_docs(    file, line, part, n, i) {
    while (("ls README.md docs/*.md 2>/dev/null" | getline file) > 0) {
        if (file == "docs/PORT.md") continue # it tells what names became, and needs no law
        while ((getline line < file) > 0) {
            if (line !~ /[^ \t]/ || line ~ /^#/) laws_of = ""
            n = split(line, part, "`")
            for (i = 2; i < n; i += 2) note_quoted(part[i])
            note_files(line)
        }
        close(file)
    }
}

# bits/proofs/Those, as the tables of docs/ARCHITECTURE.md name a file
function note_files(line,    file) {
    while (match(line, /[a-z_]+\/proofs\/[A-Za-z]+/)) {
        file = substr(line, RSTART, RLENGTH)
        line = substr(line, RSTART + RLENGTH)
        file_in_docs[substr(file, 1, index(file, "/") - 1), file_word(file)] = 1
    }
}

# Words in backticks are cited. A page speaks of a whole file by its path, or by its name after its folder:
# Laws (`crates/bits/proofs/`): `Those` (..), `Digits` (..).
function note_quoted(text,    word, n, i) {
    n = split(text, word, /[ \t,()]+/)
    for (i = 1; i <= n; i++) {
        in_docs[word[i]] = 1
        if (word[i] ~ /^crates\/[a-z_]+\/proofs\//) laws_of = crate_in(word[i])
        if (laws_of != "") file_in_docs[laws_of, file_word(word[i])] = 1
    }
}

function read_crates(    line, word) {
    while ((getline line < "crates.txt") > 0) {
        sub(/#.*/, "", line)
        if (sub(/:.*/, "", line) && split(line, word, " ")) is_listed[word[1]] = 1
    }
    close("crates.txt")
}

# Module headers stand in no item: their words belong to the file.
function scan_headers(    n, line, in_head) {
    in_block = in_text = 0
    n = lines_in[path]
    for (line_no = 1; line_no <= n; line_no++) {
        line = strip(raw[path, line_no], "antt")
        if (line ~ /^ *module /) in_head = 1
        if (in_head) header_words[path] = header_words[path] " " line
        if (line ~ /(^|[ \t])where[ \t]*$/) in_head = 0
    }
}

function scan_source(    n, i) {
    read_file()
    scan_words("rt")
    in_block = in_text = 0
    n = lines_in[path]
    source_crate[path] = crate
    for (i = 1; i <= n; i++) source_words_of[path] = source_words_of[path] " " strip(raw[path, i], "rt")
}

BEGIN {
    plain_but["antt"] = opening["antt"] = "\"|--|\\{-"
    block_edge["antt"] = "\\{-|-\\}"
    plain_but["rt"] = "[\"/" quote "]|--"
    opening["rt"] = "\"|--|//|/\\*|" quote "([^" quote "\\\\]|\\\\.[^" quote "]*)" quote
    block_edge["rt"] = "/\\*|\\*/"
    read_crates()
    read_docs()
    read_allowed()
    read_kept()
}

{
    path = $0
    split(path, part, "/")
    crate = part[2]
    if (!(crate in is_listed) || path ~ /\/declared\//) next
    if (path ~ /\.rt$/) { if (part[3] == "src") scan_source(); next }
    if (path ~ /\/Lib\.antt$/) next
    scan_antt(part[3] == "specs" ? "definition" : "law")
    scan_words("antt")
    scan_headers()
}

END {
    reach_all()
    find_twice()
    find_uncited()
    find_unused()
    find_stale()
    print "names: " findings["twice"] + 0 " with two meanings, " findings["uncited"] + 0 " laws that nobody cites, " findings["unused"] + 0 " imports that nobody uses" \
        (allowed_count ? ", " allowed_count " allowed" : "")
    exit all_findings > 0
}
