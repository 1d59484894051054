# The places where refusals have names and numbers, each read in its own way.

# number_in[place, NAME]; names_in[place] lists the names in their order.
function note(place, name, number) {
    name = toupper(name)
    if ((place, name) in number_in) {
        if (number_in[place, name] != number) wrong(place, name " is both " number_in[place, name] " and " number)
        return
    }
    number_in[place, name] = number
    names_in[place] = names_in[place] " " name
}

function wrong(place, text) {
    print place ": " text
    faults++
}

function trimmed(text) { gsub(/^[ \t]+|[ \t]+$/, "", text); return text }

function cells(line, cell,    n, i) {
    sub(/^\|/, "", line)
    sub(/\|[ \t]*$/, "", line)
    n = split(line, cell, "|")
    for (i = 1; i <= n; i++) cell[i] = trimmed(cell[i])
    return n
}

# ---- Rattle and Rust: the enum's variants, and their numbers, in the enum or in the function `number`

function read_code(place, file,    line, within, name) {
    while ((getline line < file) > 0) {
        sub(/\/\/.*/, "", line)
        if (line ~ /enum Refusal[ \t]*\{/) within = "enum"
        else if (line ~ /fn number\(/) within = "number"
        else if (within == "enum" && line ~ /^[ \t]*\}/) within = ""
        else if (within == "number" && line ~ /^    \}/) within = ""
        else if (within != "" && match(line, /[A-Z][A-Za-z]+[ \t]*(\([^)]*\)|\{[^}]*\})?[ \t]*=>?[ \t]*[0-9]+/)) {
            name = substr(line, RSTART, RLENGTH)
            note(place, word_of(name), number_of(name))
        } else if (within == "enum" && match(line, /^[ \t]*[A-Z][A-Za-z]+/)) variants[place] = variants[place] " " toupper(trimmed(substr(line, 1, RLENGTH)))
    }
    close(file)
}

function word_of(text) { match(text, /^[A-Za-z]+/); return substr(text, 1, RLENGTH) }

function number_of(text) { match(text, /[0-9]+$/); return substr(text, RSTART) + 0 }

# ---- the definition

function read_definition(place, file,    line, word, n) {
    while ((getline line < file) > 0) if (line ~ /^number_of .* = [0-9]+$/) {
        gsub(/[()]/, " ", line)
        n = split(line, word, " ")
        sub(/^.*\./, "", word[2])
        note(place, word[2], word[n] + 0)
    }
    close(file)
}

# ---- pages: | 1 | SHAPE | .. |

function read_rows(place, file, full,    line, cell, last) {
    while ((getline line < file) > 0) {
        if (line !~ /^\| *[0-9]+ *\| *[A-Z]+ *\|/) continue
        cells(line, cell)
        note(place, cell[2], cell[1] + 0)
        if (!full) continue
        if (cell[1] + 0 <= last) wrong(place, cell[2] " does not stand in the order of the numbers")
        last = cell[1] + 0
        if (cell[6] == "no longer given") gone[cell[2]] = 1
        if (cell[6] == "not given yet" || cell[6] == "no longer given") not_given[cell[2]] = 1
        else { calls_of[cell[2]] = cell[6]; if (cell[3] == "" || cell[4] == "" || cell[5] == "") wrong(place, cell[2] " has a column that says nothing") }
    }
    close(file)
}

# | call | functions | order |
function read_orders(file,    line, cell, within, n, part, i) {
    while ((getline line < file) > 0) {
        if (line ~ /^\| call \| functions \| order \|/) within = 1
        else if (line !~ /^\|/) within = 0
        else if (within && line !~ /^\|-/) {
            cells(line, cell)
            calls[++call_count] = cell[1]
            order_of_call[cell[1]] = spaced(cell[3])
            n = split(cell[2], part, "`")
            for (i = 2; i <= n; i += 2) {
                if (part[i] in order_of) wrong(page, part[i] " has two orders")
                order_of[part[i]] = spaced(cell[3])
            }
        }
    }
    close(file)
}

function spaced(text) { gsub(/,/, " ", text); gsub(/[ \t]+/, " ", text); return trimmed(text) }

# ---- the ledger's help: two columns of its own

function read_help(place,    line, word) {
    while (("bin/ledger --help 2>&1" | getline line) > 0) if (line ~ /^ +[0-9]+ +[A-Z]+ /) {
        split(line, word, " ")
        note(place, word[2], word[1] + 0)
    }
    close("bin/ledger --help 2>&1")
}

# ---- C: the enum that has CHESS_SHAPE, and what each function's comment says

function read_header(place, file,    line, block, comment) {
    while ((getline line < file) > 0) {
        if (line ~ /^enum/) block = ""
        block = block " " line
        if (line ~ /^\};|^enum.*\};/) { if (block ~ /CHESS_SHAPE/) read_enum(place, block); block = "" }
        if (line ~ /^\/\*/) comment = ""
        if (line ~ /^(\/\*| \*)/) comment = comment " " line
        if (match(line, /^[a-z0-9_]+ chess_[a-z_]+\(/)) {
            sub(/\(.*/, "", line)
            sub(/^.* /, "", line)
            said_of[line] = comment
            comment = ""
        }
    }
    close(file)
}

function read_enum(place, block,    entry) {
    gsub(/\/\*[^*]*\*\//, " ", block)
    while (match(block, /CHESS_[A-Z]+ *= *[0-9]+/)) {
        entry = substr(block, RSTART + 6, RLENGTH - 6)
        block = substr(block, RSTART + RLENGTH)
        note(place, word_of(entry), number_of(entry))
    }
}

# ---- Python: A, B, C = range(1, 4), A, B = 7, 8 or A = 9

function read_python(place, file,    line, name, value, n, m, i, from) {
    while ((getline line < file) > 0) {
        if (line !~ /^[A-Z]+(, *[A-Z]+)* *= *(range\([0-9]+, *[0-9]+\)|[0-9]+(, *[0-9]+)*)$/) continue
        n = split(substr(line, 1, index(line, "=") - 1), name, ",")
        line = trimmed(substr(line, index(line, "=") + 1))
        from = line ~ /^range/ ? substr(line, 7) + 0 : -1
        m = split(line, value, ",")
        for (i = 1; i <= n; i++) note(place, trimmed(name[i]), from < 0 ? value[i] + 0 : from + i - 1)
    }
    close(file)
}

# ---- docs/PROMISES.md: the refusals of each function, in order

function read_promises(place, file,    line, cell, name) {
    while ((getline line < file) > 0) if (line ~ /^\| `[a-z_]+::/) {
        cells(line, cell)
        name = substr(cell[1], 2, length(cell[1]) - 2)
        promised[++promised_count] = name
        refusals_of[name] = cell[4]
    }
    close(file)
}
