# What a function reaches, the documents, and the verdict.

# ---- what a function reaches

function reaches(item) {
    if (!(item in reached)) {
        if (kind[item] == "definition") reached[item] = own_definitions(crate_of[item], path_of[item], text_of[item])
        else reached[item] = mentioned(item)
    }
    return reached[item]
}

function mentioned(item,    mention, n, i, part, other, m, j, list) {
    n = split(mentions[item], mention, " ")
    for (i = 1; i <= n; i++) {
        split(mention[i], part, "/")
        m = split(named[crate_of[item], part[1], part[3]], other, " ")
        for (j = 1; j <= m; j++) if (may_mean(item, part[2], other[j])) list = list " " other[j]
    }
    return list
}

# Whether `name`, `by::name` or `x.name` in an item may mean that other one, of this name. A path that begins with
# neither a type nor a module of the crate leads out of it.
function may_mean(item, by, other,    within) {
    within = crate_of[item]
    if (by == ".") return type_of[other] != ""
    if (by == "Self") return type_of[other] == type_of[item]
    if ((within, by) in is_type) return type_of[other] == by
    if (type_of[other] != "") return 0
    if (by == "") return modules_of[other] == modules_of[item] || !((within, kind[other], modules_of[item], name_of[other]) in is_at_home)
    if ((within, by) in is_module) return ends_in(modules_of[other], "::" by)
    return by == within || by ~ /^(self|super|crate)$/
}

function ends_in(text, end) { return substr(text, length(text) - length(end) + 1) == end }

# By one edit, or where none is named by any that counts for it.
function is_tried(f, by,    queue, seen, head_at, tail, item, list, n, i) {
    tail = n = split(f own_definitions(crate_of[f], path_of[f], ensures[f]), queue, " ")
    for (i = 1; i <= n; i++) seen[queue[i]] = 1
    while (head_at < tail) {
        item = queue[++head_at]
        if (item in edited && (by != "" ? index(edited[item], " " by " ") : counts_for(item, f))) return 1
        n = split(reaches(item), list, " ")
        for (i = 1; i <= n; i++) if (!(list[i] in seen)) {
            seen[list[i]] = 1
            queue[++tail] = list[i]
        }
    }
    return 0
}

# Another public function has to be tried for itself: an edit of its own text does not count for this one.
function counts_for(item, f) { return item == f || kind[item] != "function" || !is_public(item) }

# ---- the documents

function read_exceptions(    line, cell) {
    while ((getline line < "docs/EXCEPTIONS.md") > 0) {
        split(line, cell, "|")
        if (line ~ /^[ \t]*\|/ && match(cell[2], /`[^`]+`/)) add_exception(substr(cell[2], RSTART + 1, RLENGTH - 2), cell[3], cell[4])
    }
    close("docs/EXCEPTIONS.md")
}

function add_exception(name, point, reason,    p) {
    p = point_number(point)
    rows++
    row_name[rows] = name
    row_point[rows] = point
    gsub(/^[ \t]+|[ \t]+$/, "", row_point[rows])
    if (!p) row_fault[rows] = "names no point of the check"
    else if (reason !~ /[A-Za-z0-9]/) row_fault[rows] = "gives no reason"
    else if ((name, p) in row_for) row_fault[rows] = "stands twice"
    else row_for[name, p] = rows
}

function point_number(text,    word, n, i, p) {
    gsub(/`/, " ", text)
    n = split(text, word, " ")
    for (i = 1; i <= n; i++) for (p = 1; p <= points; p++) if (word[i] == p || word[i] == point_word[p]) return p
    return 0
}

# ---- the verdict

function fault(name, short, point, text) {
    if (is_silenced(name, point) || is_silenced(short, point)) return
    print name ": " text (point ? " (point " point ")" : "")
    faults++
}

function is_silenced(name, point) {
    if (!((name, point) in row_for)) return 0
    row_used[row_for[name, point]] = 1
    return 1
}

function is_public(f) {
    return public[f] && !(index(modules_of[f] "::", "::inner_private::") && !((crate_of[f], "inner_private") in is_pub_module))
}

function full_name(f) { return crate_of[f] modules_of[f] (type_of[f] == "" ? "" : "::" type_of[f]) "::" name_of[f] }

function name_without_modules(f) { return crate_of[f] (type_of[f] == "" ? "" : "::" type_of[f]) "::" name_of[f] }

# Where two functions differ only in their modules, only the full name tells them apart.
function short_name(f,    name) {
    name = name_without_modules(f)
    return bearers[name] > 1 ? full_name(f) : name
}

function is_promise(item) { return public[item] && name_of[item] == called && called ~ /^[A-Z]/ }

function judge(f,    name, short, promise) {
    name = full_name(f)
    short = short_name(f)
    if ((f, "requires") in has_clause) fault(name, short, 1, "has a requires clause")
    if (!((f, "ensures") in has_clause)) fault(name, short, 2, "has no ensures clause")
    else if (crate_of[f] in is_static && hands_on(f, name, short)) return
    else promise = judge_promise(f, name, short)
    judge_row(f, name, short, promise, outputs)
    if (!is_tried(f, "")) fault(name, short, 6, "no must-fail edit touches it, or a definition that its promise cites")
}

# A function that a static library exports may be the one of its name in a crate below, for C: it promises what that one does, and what a promise
# determines is told, tried and listed there.
function hands_on(f, name, short,    other, n, i, wrong, from) {
    wrong = read_ensures(f)
    if (wrong != "" || crate_of[promise_item] == crate_of[f]) return 0
    from = crate_of[promise_item]
    n = split(named[from, "function", name_of[f]], other, " ")
    if ((mentions[f] " ") ~ (" function/[^/ ]+/" name_of[f] " "))
        for (i = 1; i <= n; i++) if (is_public(other[i]) && promise_of(other[i]) == promise_item) return 1
    fault(name, short, 4, "it is not the function of its name in crate " from ", with the same promise")
    return 1
}

function promise_of(f,    item, places) {
    places = outputs
    item = promise_item
    if (read_ensures(f) != "") promise_item = 0
    f = promise_item
    promise_item = item
    outputs = places
    return f
}

# The promise, or 0: without one there is nothing to look for in Determined.antt.
function judge_promise(f, name, short,    wrong, place, n, i) {
    wrong = read_ensures(f)
    if (wrong != "") { fault(name, short, 4, wrong); return 0 }
    if (!((promise_item, outputs) in law_for))
        fault(name, short, 5, "no law of crates/" crate_of[f] "/proofs/Determined.antt says of " name_of[promise_item] " that it allows one answer and one exit of what is lent")
    n = split(substr(outputs, 2, length(outputs) - 2), place, ",")
    for (i = 1; i <= n; i++) if (!says(promise_item, place[i]))
        fault(name, short, 8, "no equation of " name_of[promise_item] " says what stands at its place " place[i] ", or one says it by itself")
    return promise_item
}

function judge_rows(    r) {
    for (r = 1; r <= rows; r++) {
        if (row_fault[r] == "" && !(r in row_used)) row_fault[r] = "silences nothing"
        if (row_fault[r] == "") continue
        print row_name[r] ": its exception for " row_point[r] " in docs/EXCEPTIONS.md " row_fault[r]
        faults++
    }
}

function read_crates(    line, word, n, i) {
    while ((getline line < "crates.txt") > 0) {
        sub(/#.*/, "", line)
        if (!sub(/:.*/, "", line)) continue
        n = split(line, word, " ")
        is_listed[word[1]] = 1
        for (i = 2; i <= n; i++) if (word[i] == "staticlib") is_static[word[1]] = 1
    }
    close("crates.txt")
}

BEGIN {
    points = split("requires ensures listed promise determined must-fail comment says", point_word, " ")
    plain_but["antt"] = "\"|--|\\{-"
    opening["antt"] = "\"|--|\\{-"
    block_edge["antt"] = "\\{-|-\\}"
    plain_but["rt"] = "[\"/" quote "]|--"
    opening["rt"] = "\"|--|//|/\\*|" quote "([^" quote "\\\\]|\\\\.[^" quote "]*)" quote
    block_edge["rt"] = "/\\*|\\*/"
    columns_needed = split("function/answers/promise/refusals, in order/determined by/must-fail edits", column_name, "/")
    read_crates()
    read_promises()
    read_exceptions()
}

{
    path = $0
    split(path, part, "/")
    crate = part[2]
    if (!(crate in is_listed)) next
    if (part[3] == "src" && path ~ /\.rt$/) scan_source()
    else if (part[3] == "specs" && path ~ /\.antt$/) scan_antt("definition")
    else if (part[3] == "proofs" && part[4] == "Determined.antt") scan_antt("proof")
    else if (part[3] == "must-fail" && path ~ /\.edit$/) edits[++edit_count] = path
}

END {
    for (i = 1; i <= edit_count; i++) {
        path = edits[i]
        split(path, part, "/")
        crate = part[2]
        scan_edit()
        edit_there[crate, edit_word()] = path
        if (!((crate, edit_word()) in in_section)) fault(edit_name(), edit_name(), 3, "is not named in the section " crate " of docs/PROMISES.md")
    }
    for (i = 1; i <= items; i++) if (kind[i] == "proof") note_law(i)
    for (i = 1; i <= function_count; i++) if (is_public(functions[i])) {
        judged++
        bearers[name_without_modules(functions[i])]++
    }
    for (i = 1; i <= function_count; i++) if (is_public(functions[i])) judge(functions[i])
    judge_table()
    judge_rows()
    if (faults) { print "promises: " faults " faults"; exit 1 }
    print "promises: " (judged + 0) " public functions, all promised"
}
