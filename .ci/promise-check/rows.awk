# The tables of docs/PROMISES.md: one row for each public function, in the columns that the table's head names.

# row_of[name]: the number of its row; cell_of[row, column] its cells. A name in prose is no row.
function read_promises(    line, fenced, in_table, column, section) {
    while ((getline line < "docs/PROMISES.md") > 0) {
        if (line ~ /^#/) { section = line; gsub(/^#+ */, "", section) }
        note_section(section, line)
        if (line ~ /^[ \t]*```/) fenced = !fenced
        if (fenced || line !~ /^\|.*\|[ \t]*$/) in_table = 0
        else if (!in_table) in_table = table_head(line, column)
        else if (line !~ /^[|: -]+$/ && in_table > 1) add_row(line, column)
    }
    close("docs/PROMISES.md")
}

# in_section[crate, word]: every word of the section that has the crate's name
function note_section(section, line,    word, n, i) {
    gsub(/[^A-Za-z0-9_]+/, " ", line)
    n = split(line, word, " ")
    for (i = 1; i <= n; i++) in_section[section, word[i]] = 1
}

# 2 for a table of functions, 1 for another.
function table_head(line, column,    cell, n, i) {
    delete_all(column)
    n = cells(line, cell)
    for (i = 1; i <= n; i++) {
        if (cell[i] ~ /^promise/) cell[i] = "promise"
        column[cell[i]] = i
    }
    if (!("function" in column)) return 1
    for (i = 1; i <= columns_needed; i++) if (!(column_name[i] in column)) {
        table_fault("its table in docs/PROMISES.md has no column \"" column_name[i] "\"")
        return 1
    }
    return 2
}

function table_fault(text) { table_faults[++table_fault_count] = text }

function cells(line, cell,    n, i) {
    sub(/^\|/, "", line)
    sub(/\|[ \t]*$/, "", line)
    n = split(line, cell, "|")
    for (i = 1; i <= n; i++) gsub(/^[ \t]+|[ \t]+$/, "", cell[i])
    return n
}

function add_row(line, column,    cell, n, i, name) {
    n = cells(line, cell)
    name = cell[column["function"]]
    if (name !~ /^`[^`]+`$/) { table_fault("a row of docs/PROMISES.md begins with " (name == "" ? "nothing" : name) ", no name in backticks"); return }
    name = substr(name, 2, length(name) - 2)
    if (name in row_of) { table_fault(name ": stands twice in docs/PROMISES.md"); return }
    row_of[name] = ++row_count
    row_title[row_count] = name
    for (i = 1; i <= columns_needed; i++) cell_of[row_count, column_name[i]] = cell[column[column_name[i]]]
}

# ---- a function and its row

function judge_row(f, name, short, promise, key,    row, cell, other) {
    if (!(name in row_of || short in row_of)) { fault(name, short, 3, "has no row in docs/PROMISES.md"); return }
    row = name in row_of ? row_of[name] : row_of[short]
    row_is_used[row] = 1
    if (cell_of[row, "answers"] == "" || cell_of[row, "refusals, in order"] == "") fault(name, short, 3, "its row leaves a column of docs/PROMISES.md empty")
    if (promise) {
        other = first_quoted(cell_of[row, "promise"])
        if (other != name_of[promise]) fault(name, short, 3, "its row names the promise " (other == "" ? "nowhere" : other) ", its ensures " name_of[promise])
        judge_law(name, short, promise, key, row)
    }
    judge_edits(f, name, short, cell_of[row, "must-fail edits"])
}

function first_quoted(text) { return match(text, /^`[^`]+`/) ? substr(text, 2, RLENGTH - 2) : "" }

function judge_law(name, short, promise, key, row,    law) {
    if (!((promise, key) in law_for)) return
    law = first_quoted(cell_of[row, "determined by"])
    if (law == "" || !index(law_for[promise, key], " " law " ")) fault(name, short, 3, "its row names no law that determines " name_of[promise])
}

# The edits stand before a semicolon, with commas between; what follows it is said in words.
function judge_edits(f, name, short, text,    list, n, i) {
    sub(/;.*/, "", text)
    gsub(/`/, "", text)
    n = split(text, list, /[ \t]*,[ \t]*/)
    if (!n) fault(name, short, 3, "its row names no edit")
    for (i = 1; i <= n; i++) {
        if (!((crate_of[f], list[i]) in edit_there)) fault(name, short, 3, "its row names the edit " list[i] ", which crates/" crate_of[f] "/must-fail has not")
        else if (!is_tried(f, edit_there[crate_of[f], list[i]])) fault(name, short, 3, "its row names the edit " list[i] ", which touches nothing that it reaches")
    }
}

function judge_table(    r) {
    for (r = 1; r <= row_count; r++) if (!(r in row_is_used)) table_fault(row_title[r] ": has a row in docs/PROMISES.md, and is no public function")
    for (r = 1; r <= table_fault_count; r++) { print table_faults[r] " (point 3)"; faults++ }
}
