# What the pages name: paths, links, definitions, functions, crates, and what they quote.

function wrong(text) {
    print page ":" line_no ": " text
    faults++
}

# ---- paths

# A word that holds a place open, as crates/X/must-fail/NAME.edit, docs/landings/W-2nn.md or bin/.., names no file.
# docs/EXCEPTIONS.md is there only while a promise has an exception.
function is_open(path) { return path == "docs/EXCEPTIONS.md" || path ~ /^crate\/|(^|\/)(X|NAME|CRATE|FILE|F|EDIT)([.\/]|$)|2nn|NAME|\.\.|[<>$]/ }

function judge_paths(line,    path, before) {
    while (match(line, /(\.ci|bin|oracle|include|bench|examples|docs|crates|[a-z_]+\/(specs|proofs|src|must-fail))\/[A-Za-z0-9_.*\/-]*/)) {
        before = RSTART > 1 ? substr(line, RSTART - 1, 1) : ""
        path = substr(line, RSTART, RLENGTH)
        line = substr(line, RSTART + RLENGTH)
        sub(/[.\/-]+$/, "", path)
        if (before !~ /[A-Za-z0-9_\/.-]/ && !is_open(path) && path !~ /(^|\/)target(\/|$)|^crates\/[^\/]*\/out(\/|$)/) judge_path(path)
    }
}

function judge_path(path,    crate) {
    if (path in there || path ".antt" in there || path ~ /\*/ && is_some(path)) return
    if (path ~ /^[a-z_]+\/(specs|proofs|src|must-fail)(\/|$)/) {
        crate = substr(path, 1, index(path, "/") - 1)
        if (!(crate in is_crate)) { wrong(path ": there is no crate " crate); return }
        path = "crates/" path
        if (path in there || path ".antt" in there || path ".rt" in there || path ".edit" in there || path ~ /\*/ && is_some(path)) return
    }
    wrong(path ": is not there")
}

# docs/*.md: whether some path is of that form.
function is_some(form,    path) {
    gsub(/[.]/, "[.]", form)
    gsub(/[*]+/, "[^/]*", form)
    for (path in there) if (path ~ "^" form "$") return 1
    return 0
}

# [text](path), from the folder that the page is in
function judge_links(line,    target, folder) {
    while (match(line, /\]\([^)]+\)/)) {
        target = substr(line, RSTART + 2, RLENGTH - 3)
        line = substr(line, RSTART + RLENGTH)
        if (target ~ /^[a-z]+:/ || target ~ /^#/) continue
        sub(/#.*/, "", target)
        folder = page
        if (!sub(/[^\/]*$/, "", folder)) folder = ""
        target = folder target
        while (sub(/\/\.\//, "/", target)) continue
        sub(/^\.\//, "", target)
        while (sub(/[^\/]+\/\.\.\//, "", target)) continue
        sub(/\/$/, "", target)
        if (!(target in there)) wrong(target ": is linked and not there")
    }
}

# ---- definitions: bits/specs/Answers, Promises: `got_of`, `Gets`; the names go on to the next semicolon or cell

function judge_definitions(line,    head, rest, i) {
    while (match(line, /[a-z_]+\/(specs|proofs)\/[A-Za-z\/]+(, [A-Z][A-Za-z\/]*)*: /)) {
        head = substr(line, RSTART, RLENGTH - 2)
        line = substr(line, RSTART + RLENGTH)
        rest = line
        sub(/[;|].*/, "", rest)
        if (match(rest, /[a-z_]+\/(specs|proofs)\//)) rest = substr(rest, 1, RSTART - 1)
        judge_names(head, rest)
    }
}

function judge_names(head, text,    file, n, part, m, i, j, folder, found) {
    folder = head
    sub(/\/[A-Z][A-Za-z\/]*(, .*)?$/, "", folder)
    n = split(substr(head, length(folder) + 2), file, ", ")
    m = split(text, part, "`")
    for (i = 2; i < m; i += 2) if (part[i] ~ /^[^ .:()]+$/) {
        found = 0
        for (j = 1; j <= n; j++) if (declares("crates/" folder "/" file[j] ".antt", part[i])) found = 1
        if (!found) wrong(part[i] ": is not declared in " head)
    }
}

# ---- functions: `bits::get`, `chess::square::Square::new`

function judge_functions(line,    part, n, i) {
    n = split(line, part, "`")
    for (i = 2; i < n; i += 2) if (part[i] ~ /^[a-z_]+(::[A-Za-z_0-9]+)+$/) judge_function(part[i])
}

function judge_function(name,    part, n, i) {
    n = split(name, part, "::")
    if (!(part[1] in is_crate)) return
    for (i = 2; i <= n; i++) if (!names(part[1], part[i])) { wrong(name ": crates/" part[1] "/src has no " part[i]); return }
}

# ---- commands: rt check bits chess

function judge_commands(line,    text, word, n, i) {
    while (match(line, /(^|[ `(])rt (check|verdict|lib|run|test|try|ci|must-fail|expand|tidy|plant)( [a-z_]+)+/)) {
        text = substr(line, RSTART, RLENGTH)
        line = substr(line, RSTART + RLENGTH)
        if (line ~ /^[a-zA-Z]/) continue
        n = split(text, word, " ")
        for (i = 3; i <= n; i++) if (is_word_of(text) && !(word[i] in is_crate) && !(word[i] in is_kit)) wrong("rt names the crate " word[i] ", which is not there")
    }
}

# A command stands in backticks or in a line of its own; elsewhere `rt check` is a word of a sentence.
function is_word_of(text) { return text ~ /^`/ || whole ~ /^    / }

# ---- quotes: after a line that ends in "In `FILE`:" or "`FILE` names all of it:" the block's lines stand in that file, one after the other

function judge_quote(line) {
    if (line ~ /^    /) {
        if (quoted_file != "") next_quoted(line)
    } else if (line ~ /[^ \t]/) {
        quoted_file = ""
        if (match(line, /`[^` ]+`( names all of it)?:$/)) {
            quoted_file = substr(line, RSTART + 1)
            sub(/`.*/, "", quoted_file)
            if (!(quoted_file in there)) quoted_file = ""
            quoted_from = 0
        }
    }
}

function next_quoted(line,    i) {
    line = squeezed(line)
    if (!(quoted_file in length_of)) read_quoted(quoted_file)
    for (i = 1; i <= length_of[quoted_file]; i++) if (text_in[quoted_file, i] == line && (!quoted_from || i == quoted_from + 1)) { quoted_from = i; return }
    wrong("\"" line "\" does not stand " (quoted_from ? "next " : "") "in " quoted_file)
    quoted_file = ""
}

function squeezed(line) { gsub(/[ \t]+/, " ", line); sub(/^ /, "", line); sub(/ $/, "", line); return line }

# Lines that hold something.
function read_quoted(file,    line, n) {
    while ((getline line < file) > 0) if (line ~ /[^ \t]/) text_in[file, ++n] = squeezed(line)
    close(file)
    length_of[file] = n + 0
}

BEGIN {
    read_crates()
    while ((getline path < tree) > 0) note_path(path)
    close(tree)
}

{
    page = $0
    pages++
    line_no = 0
    quoted_file = ""
    while ((getline whole < page) > 0) {
        line_no++
        judge_paths(whole)
        judge_links(whole)
        judge_definitions(whole)
        judge_functions(whole)
        judge_commands(whole)
        judge_quote(whole)
    }
    close(page)
}

END {
    if (faults) { print "docs: " faults " faults"; exit 1 }
    print "docs: " pages " pages, all that they name is there"
}
