# The shape of an ensures, of a promise's definition and of a law of Determined.antt.

# ---- terms

# The pieces of a term between marks of its own depth, and how many there are: `(a) × (b)` by ×, `a → b` by →.
function split_at(text, mark, piece,    word, n, i, depth, count) {
    delete_all(piece)
    n = term_words(text, word)
    count = 1
    piece[1] = ""
    for (i = 1; i <= n; i++) {
        if (word[i] ~ /^[({]$/) depth++
        if (word[i] ~ /^[)}]$/) depth--
        if (depth == 0 && word[i] == mark) piece[++count] = ""
        else piece[count] = piece[count] " " word[i]
    }
    return count
}

function delete_all(list,    key) { for (key in list) delete list[key] }

function term_words(text, word) {
    gsub(/[(){}]|⌜|⌝/, " & ", text)
    return split(text, word, " ")
}

# The head of an application and what it is applied to, each with a gap after its words: without one, `(b+0)`.
function applied(text, term, gap,    word, n, i, depth, count) {
    delete_all(term)
    n = term_words(text, word)
    for (i = 1; i <= n; i++) {
        if (depth == 0) term[++count] = ""
        term[count] = term[count] word[i] gap
        if (word[i] ~ /^[({]$/) depth++
        if (word[i] ~ /^[)}]$/) depth--
    }
    return count + 0
}

# A term without the parentheses around the whole of it.
function bare(text,    word, n, i, depth) {
    n = term_words(text, word)
    if (word[1] != "(" || word[n] != ")") return text
    for (i = 1; i < n; i++) {
        if (word[i] == "(") depth++
        if (word[i] == ")" && --depth == 0) return text
    }
    sub(/^ *\(/, "", text)
    sub(/\) *$/, "", text)
    return bare(text)
}

function mentions_name(text, name,    word, n, i) {
    n = antt_words(text, word)
    for (i = 1; i <= n; i++) if (word[i] == name || index(word[i], name ".") == 1) return 1
    return 0
}

# ---- what a function is given, and what its promise must speak of

# wanted[term]: 1 for what is given, 2 for what it gives: the result, and what a `&mut` holds at the exit.
# The answer is what is wrong with the parameters, or "".
function want_all(f, wanted,    text, list, n, i) {
    delete_all(wanted)
    text = signature_text[f]
    sub(/^[^(]*/, "", text)
    n = parameters(text, list)
    for (i = 1; i <= n; i++) if (!want_parameter(list[i], wanted)) return "has a parameter that is no name of its own, or lends inside its type"
    want_result(after_parameters, wanted)
    return ""
}

# The parameters of `(a: A, b: [B; 2]) -> R`, and in after_parameters what follows them.
function parameters(text, list,    i, c, depth, count, angles) {
    delete_all(list)
    for (i = 1; i <= length(text); i++) {
        c = substr(text, i, 1)
        if (c ~ /[[({]/ && ++depth == 1) { list[++count] = ""; continue }
        if (c ~ /[])}]/ && --depth == 0) break
        if (c == "<") angles++
        if (c == ">" && substr(text, i - 1, 1) != "-") angles--
        if (c == "," && depth == 1 && angles == 0) list[++count] = ""
        else list[count] = list[count] c
    }
    after_parameters = substr(text, i + 1)
    while (count > 0 && list[count] !~ /[^ \t]/) count--
    return count + 0
}

function want_parameter(text, wanted,    name, type, is_lent) {
    if (text ~ /^[ \t]*(&[ \t]*(mut[ \t]+)?|mut[ \t]+)?self[ \t]*$/) {
        name = "self"
        type = text
    } else {
        name = type = text
        if (!sub(/:.*/, "", name) || !sub(/^[^:]*:/, "", type)) return 0
        sub(/^[ \t]*(mut[ \t]+)?/, "", name)
        sub(/[ \t]*$/, "", name)
    }
    if (name !~ /^[A-Za-z_][A-Za-z0-9_]*$/ || name == "result") return 0
    gsub(quote "[a-z_]+", "", type)
    if (!sub(/^[ \t]*&[ \t]*/, "", type)) wanted[name] = 1
    else {
        is_lent = type ~ /^mut[ \t]/
        wanted[name (is_lent ? ".old" : ".now")] = 1
        if (is_lent) wanted[name ".new"] = 2
    }
    return type !~ /&/
}

function want_result(text, wanted) {
    if (text !~ /^[ \t]*->/) return
    wanted[text ~ /^[ \t]*->[ \t]*&/ ? "result.now" : "result"] = 2
}

# ---- an ensures: one promise applied to each of them once

# What is wrong with it, or ""; then promise_item, and in outputs the places of what the function gives, as ",3,4,".
function read_ensures(f,    text, term, n, wanted, i, wrong) {
    promise_item = 0
    outputs = ","
    text = ensures[f]
    if (ensures_count[f] != 1 || !sub(/ *\} *$/, "", text)) return not_one(f)
    n = applied(text, term, "")
    promise_item = promise_named(crate_of[f], path_of[f], term[1])
    if (text ~ /⌜|⌝|→|λ/ || !promise_item || (path_of[f], "result") in imported_as) { promise_item = 0; return not_one(f) }
    if (head_of(promise_item) ~ /\{/) return "its promise " name_of[promise_item] " has an argument that is not written"
    wrong = want_all(f, wanted)
    if (wrong != "") return wrong
    for (i = 2; i <= n; i++) {
        if (!(term[i] in wanted)) return "its promise " name_of[promise_item] " is applied to " term[i] ", which it is not given and does not give, or twice"
        if (wanted[term[i]] == 2) outputs = outputs (i - 1) ","
        delete wanted[term[i]]
    }
    for (i in wanted) wrong = i
    return wrong == "" ? "" : "its promise " name_of[promise_item] " is not applied to " wrong
}

# What stands before a record's fields, or the whole signature.
function head_of(item,    text) {
    text = signature[item]
    sub(/ where( .*)?$/, "", text)
    return text
}

function not_one(f) { return "its ensures is not one promise, a pub definition with a capital in crates/" crate_of[f] "/specs, applied to names" }

function promise_named(in_crate, in_path, word,    item, m, j) {
    m = split(cited(in_crate, in_path, word), item, " ")
    if (!m && in_crate in is_static) m = split(cited_below(in_path, word), item, " ")
    for (j = 1; j <= m; j++) if (is_promise(item[j])) return item[j]
    return 0
}

# The definition of another crate that an imported word stands for.
function cited_below(in_path, word,    file) {
    file = imported_from_module[in_path, word]
    if (!sub(/^Rattle\./, "", file)) return ""
    gsub(/\./, "/", file)
    called = imported_as[in_path, word]
    return defined["crates/" file ".antt", called]
}

# ---- a promise's definition: an equation for each thing that the function gives

# The names of its parameters: of its one clause, or of its record.
function definition_names(item, name,    text, group, n, i, word) {
    delete_all(name)
    body_of_definition = ""
    if (form_of[item] == "record") return record_names(item, name)
    text = clause_of[item]
    if (split_at(text, "=", group) < 2) return 0
    body_of_definition = substr(text, index(text, " = ") + 3)
    n = applied(group[1], word, "")
    if (word[1] != name_of[item] || clauses[item] != 1) return 0
    for (i = 2; i <= n; i++) name[i - 1] = word[i]
    return n - 1
}

function record_names(item, name,    text, word, n, i, names, count, implicit, depth) {
    text = signature[item]
    if (!match(text, / where( |$)/)) return 0
    body_of_definition = substr(text, RSTART + RLENGTH)
    n = term_words(substr(text, 1, RSTART), word)
    for (i = 1; i <= n; i++) {
        if (word[i] ~ /^[({]$/) { if (++depth == 1) { names = 1; implicit = word[i] == "{" } }
        else if (word[i] ~ /^[)}]$/) depth--
        else if (word[i] == ":") names = 0
        else if (names && !implicit) name[++count] = word[i]
    }
    return count + 0
}

# Whether some conjunct says by an equation what the parameter at a place is, and none by itself.
function says(item, place,    name, n, part, m, i, halves, said, text) {
    n = definition_names(item, name)
    if (place > n) return 0
    text = body_of_definition
    if (form_of[item] == "record") { gsub(/(^| )pub [^ ]+ : /, " × ", text); gsub(/ mutual | open /, " ", text) }
    m = conjuncts(text, part)
    for (i = 1; i <= m; i++) {
        if (is_choice(part[i])) continue
        if (split_at(part[i], "≡", halves) == 2) {
            if (mentions_name(halves[2], name[place])) return 0
            if (mentions_name(halves[1], name[place])) said = 1
        } else if (said_by(item, part[i], name[place])) said = 1
    }
    return said + 0
}

# What follows from something, or one of two, says nothing by itself.
function is_choice(text,    piece) { return split_at(text, "→", piece) > 1 || split_at(text, "⊎", piece) > 1 }

# The pieces between × at every depth of parentheses that holds nothing else.
function conjuncts(text, part,    queue, head_at, tail, piece, n, i, count) {
    delete_all(part)
    queue[tail = 1] = text
    while (head_at < tail) {
        n = split_at(bare(queue[++head_at]), "×", piece)
        if (n == 1) part[++count] = piece[1]
        else for (i = 1; i <= n; i++) queue[++tail] = piece[i]
    }
    return count
}

# A conjunct that hands the parameter on to a promise: one of this crate says it in its turn, one of another crate is
# held by that crate's own check.
function said_by(item, text, name,    term, n, i, other) {
    n = applied(text, term, " ")
    sub(/ $/, "", term[1])
    if (term[1] !~ /^([^·]*·)?[A-Z]/) return 0
    other = promise_named(crate_of[item], path_of[item], term[1])
    for (i = 2; i <= n; i++) if (mentions_name(term[i], name)) return other ? says(other, i - 1) : !is_own(item, term[1])
    return 0
}

function is_own(item, word) { return cited(crate_of[item], path_of[item], word) != "" }

# ---- a law of Determined.antt

# It is held for the places ",3,4," of a promise if it reads
#     (names) → P a b r y → P a b s z → (r ≡ s) × (y ≡ z)
# with a name of its own for every place, the same for what is given, two for what the function gives, and nothing else.
function note_law(proof,    part, n, i, first_at, one, other, m, key, free, bound) {
    if (!public[proof] || form_of[proof] != "" || nested[proof]) return
    if (!has_library_symbols(path_of[proof])) return
    n = split_at(past_colon(signature[proof]), "→", part)
    for (i = 1; i <= n && is_binder(part[i], bound); i++) continue
    first_at = i
    if (n - first_at != 2) return
    m = applied(part[first_at], one, "")
    if (applied(part[n - 1], other, "") != m || one[1] != other[1] || (path_of[proof], one[1]) in declared) return
    key = compared(one, other, m, bound, free)
    if (key == "" || !concludes(part[n], one, other, key)) return
    i = promise_named(crate_of[proof], path_of[proof], one[1])
    if (i) law_for[i, key] = law_for[i, key] " " name_of[proof] " "
}

# ≡ is the library's, by one of the modules that hand it on, and × the language's.
function has_library_symbols(file) {
    return imported_from_module[file, "≡"] ~ /^(mathlib\.Core\.Path|Rattle\.std\.specs\.Prelude|Rattle\.std\.proofs\.Common)$/ &&
        imported_as[file, "≡"] == "◌≡◌" && !((file, "×") in imported_as) && !((file, "◌≡◌") in declared) && !((file, "◌×◌") in declared)
}

function past_colon(text) { return substr(text, index(text, " : ") + 3) }

# One or more groups `(a b : T)`, whose names are added to bound.
function is_binder(text, bound,    term, n, i, word, m, j) {
    n = applied(text, term, " ")
    for (i = 1; i <= n; i++) {
        m = split(term[i], word, " ")
        if (word[1] != "(" || !index(term[i], " : ")) return 0
        for (j = 2; word[j] != ":"; j++) bound[word[j]]++
    }
    return n > 0
}

# The places in which the two applications differ, or "" where they are not of bound names, each once and all of them.
function compared(one, other, m, bound, free,    i, key, name) {
    for (name in bound) if (bound[name] > 1) return ""
    key = ","
    for (i = 2; i <= m; i++) {
        if (!(one[i] in bound) || !(other[i] in bound)) return ""
        if (one[i] in free || other[i] in free) return ""
        free[one[i]] = free[other[i]] = 1
        if (one[i] != other[i]) key = key (i - 1) ","
    }
    for (name in bound) if (!(name in free)) return ""
    return key == "," ? "" : key
}

# Exactly the equation of each pair.
function concludes(text, one, other, key,    part, n, i, sides, place, m, seen) {
    n = conjuncts(text, part)
    m = split(substr(key, 2, length(key) - 2), place, ",")
    if (n != m) return 0
    for (i = 1; i <= n; i++) {
        if (split_at(bare(part[i]), "≡", sides) != 2) return 0
        gsub(/ /, "", sides[1])
        gsub(/ /, "", sides[2])
        seen[sides[1], sides[2]] = 1
    }
    for (i = 1; i <= m; i++) if (!((one[place[i] + 1], other[place[i] + 1]) in seen)) return 0
    return 1
}
