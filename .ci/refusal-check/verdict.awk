# Every name and number in every place, held against docs/REFUSALS.md, and that against the enum.

function is_given(name) { return (page, name) in number_in && !(name in not_given) }

# The place has the enum's names and numbers, no more and no less.
function same_as_enum(place,    name, n, i) {
    n = split(names_in[place], name, " ")
    for (i = 1; i <= n; i++) if (!((source, name[i]) in number_in)) wrong(place, name[i] " is not in " source)
    else if (number_in[source, name[i]] != number_in[place, name[i]]) differs(place, name[i], source)
    n = split(names_in[source], name, " ")
    for (i = 1; i <= n; i++) if (!((place, name[i]) in number_in)) wrong(place, "lacks " name[i])
}

function differs(place, name, other) { wrong(place, name " is " number_in[place, name] ", and " number_in[other, name] " in " other) }

# The page has all of them; what it has beyond them is not given yet.
function page_and_enum(    name, n, i) {
    n = split(names_in[page], name, " ")
    for (i = 1; i <= n; i++) {
        if ((source, name[i]) in number_in) { if (number_in[source, name[i]] != number_in[page, name[i]]) differs(page, name[i], source) }
        else if (is_given(name[i])) wrong(page, name[i] " is not in " source ", and not marked \"not given yet\"")
    }
    n = split(names_in[source], name, " ")
    for (i = 1; i <= n; i++) if (!((page, name[i]) in number_in)) wrong(page, "lacks " name[i])
    n = split(variants[source], name, " ")
    for (i = 1; i <= n; i++) if (!((source, name[i]) in number_in)) wrong(source, name[i] " has no number")
}

function one_number_each(    name, n, i, bearer) {
    n = split(names_in[source], name, " ")
    for (i = 1; i <= n; i++) {
        if (number_in[source, name[i]] in bearer) wrong(source, name[i] " and " bearer[number_in[source, name[i]]] " have one number")
        bearer[number_in[source, name[i]]] = name[i]
    }
}

# What is no longer given stands in no place but the page, and nothing else has its number.
function judge_gone(place,    name, n, i, old) {
    n = split(names_in[place], name, " ")
    for (i = 1; i <= n; i++) for (old in gone) {
        if (name[i] == old) wrong(place, old " is no longer given")
        else if (number_in[place, name[i]] == number_in[page, old]) wrong(place, name[i] " has the number of " old ", which is no longer given")
    }
}

# A place that has the page's names, and all that are given.
function as_on_page(place, whole,    name, n, i) {
    n = split(names_in[place], name, " ")
    if (!n) wrong(place, "no refusal was found there")
    for (i = 1; i <= n; i++) {
        if (!((page, name[i]) in number_in)) wrong(place, name[i] " is not in " page)
        else if (number_in[page, name[i]] != number_in[place, name[i]]) differs(place, name[i], page)
    }
    n = whole ? split(names_in[page], name, " ") : 0
    for (i = 1; i <= n; i++) if (is_given(name[i]) && !((place, name[i]) in number_in)) wrong(place, "lacks " name[i])
}

# ---- orders

# The names that are given, in the order in which a text has them; what stands in backticks is quoted.
function named(text,    word, n, i, list) {
    gsub(/`[^`]*`/, " ", text)
    gsub(/[^A-Z0-9_a-z]+/, " ", text)
    n = split(text, word, " ")
    for (i = 1; i <= n; i++) if (is_given(word[i])) list = list " " word[i]
    return trimmed(list)
}

function judge_orders(    i, name, short, word, n, j) {
    for (i = 1; i <= call_count; i++) {
        n = split(order_of_call[calls[i]], word, " ")
        for (j = 1; j <= n; j++) if (!is_given(word[j])) wrong(page, "the order of " calls[i] " has " word[j] ", which is not given")
    }
    for (i = 1; i <= promised_count; i++) {
        name = short = promised[i]
        sub(/^.*::/, "", short)
        if (!(name in order_of) && short ~ /^chess_/) name = short
        is_function[name] = 1
        if (named(refusals_of[promised[i]]) != order_of[name]) wrong("docs/PROMISES.md", promised[i] " refuses " list(named(refusals_of[promised[i]])) ", " list(order_of[name]) " in " page)
    }
    for (name in order_of) if (!(name in is_function)) wrong(page, name " is no function of docs/PROMISES.md")
    for (name in said_of) if (named(said_of[name]) != order_of[name]) wrong(header, name " refuses " list(named(said_of[name])) ", " list(order_of[name]) " in " page)
}

function list(text) { if (text == "") return "nothing"; gsub(/ /, ", ", text); return text }

# The page's column "Calls" is what its orders say.
function judge_calls(    name, n, i, j, wanted) {
    n = split(names_in[page], name, " ")
    for (i = 1; i <= n; i++) if (is_given(name[i])) {
        wanted = ""
        for (j = 1; j <= call_count; j++) if (index(" " order_of_call[calls[j]] " ", " " name[i] " ")) wanted = wanted (wanted == "" ? "" : ", ") calls[j]
        if (calls_of[name[i]] != wanted) wrong(page, "the calls that give " name[i] " are by their orders: " (wanted == "" ? "none" : wanted))
    }
}

# A line is refused in a ledger in the order of its help.
function judge_help(    by) {
    # the help has a profile's rules too, where the page has a profile
    by = "line by value from real play"
    if (!(by in order_of_call)) by = "line by value"
    if (trimmed(names_in["bin/ledger --help"]) != order_of_call[by]) wrong("bin/ledger --help", "has " list(trimmed(names_in["bin/ledger --help"])) ", and a line is refused by " list(order_of_call[by]))
}

BEGIN {
    page = "docs/REFUSALS.md"
    header = "include/chess_scores.h"
    read_code(source, source)
    read_definition(definition, definition)
    read_rows(page, page, 1)
    read_orders(page)
    read_rows("README.md", "README.md", 0)
    read_help("bin/ledger --help")
    read_header(header, header)
    read_code("include/chess_scores.rs", "include/chess_scores.rs")
    read_python("oracle/reference/refusal.py", "oracle/reference/refusal.py")
    read_promises("docs/PROMISES.md", "docs/PROMISES.md")
    one_number_each()
    judge_gone(source)
    judge_gone(definition)
    judge_gone("README.md")
    judge_gone(header)
    judge_gone("include/chess_scores.rs")
    judge_gone("oracle/reference/refusal.py")
    same_as_enum(definition)
    page_and_enum()
    as_on_page("README.md", 1)
    as_on_page("bin/ledger --help", 0)
    as_on_page(header, 1)
    as_on_page("include/chess_scores.rs", 1)
    as_on_page("oracle/reference/refusal.py", 1)
    judge_orders()
    judge_calls()
    judge_help()
    if (faults) { print "refusals: " faults " faults"; exit 1 }
    print "refusals: " split(names_in[source], ignored, " ") " in the enum, " call_count " calls, the same everywhere"
}
