# The rows of a ledger on standard input, and the lines that they are of: awk -f explain.awk -- REFUSALS.md FILE.., in the locale C
#
# Each refused line is shown with its number, its name and reason in the words of the page's table, a mark under the place where that can be
# told, and how to mend it; then how many there are of each reason, and the ledger's last row. Rows decide: nothing here refuses a line. The status
# is 0 exactly if each row had a line, no line was left without, and the last row counts what was shown.
BEGIN {
    WIDEST = 160 # bytes of a line that are shown whole
    AROUND = 60 # and of a longer one, on either side of the mark
    for (i = 1; i < 256; i++) code[sprintf("%c", i)] = i
    read_words(ARGV[1])
    for (i = 2; i < ARGC; i++) name[++files] = ARGV[i]
    ARGC = 1
    at = 1
}

# ---- the words: | No. | Name | When | An example | How to mend it | Calls |
function read_words(page,    row, cell, n) {
    while ((getline row < page) > 0) {
        n = split(row, cell, "|")
        if (n < 7 || cell[2] !~ /^ *[0-9]+ *$/) continue
        n = cell[2] + 0
        called[n] = trimmed(cell[3])
        gsub(/ \(W-[0-9]+[^)]*\)/, "", cell[4]) # which request brought it is nothing to an editor
        why[n] = trimmed(cell[4])
        mend[n] = trimmed(cell[6])
    }
    close(page)
}

function trimmed(s) {
    gsub(/^[ \t\r]+|[ \t\r]+$/, "", s)
    return s
}

# ---- the lines of the files, one after another
function next_line(    got) {
    while (at <= files) {
        got = (getline text < (name[at] == "-" ? "./-" : name[at]))
        if (got > 0) {
            inside++
            return 1
        }
        if (got < 0) return 0
        close(name[at])
        at++
        inside = 0
    }
    return 0
}

# ---- where a line is at fault: `mark` is the first byte, `wide` how many; 0 where that can't be told
function word(field, n,    i, past) { # the n-th word of a field, by spaces; where it is missing, the field's end
    past = 0
    for (i = 1; ; i++) {
        match(substr(field, past + 1), /^ */)
        past += RLENGTH
        match(substr(field, past + 1), /^[^ ]*/)
        if (i == n || RLENGTH == 0) break
        past += RLENGTH
    }
    mark = past + 1
    wide = RLENGTH
}

function squares(rank,    i, c, sum, before) { # of one rank; 0 where it has what no rank has
    sum = 0
    before = 0
    for (i = 1; i <= length(rank); i++) {
        c = substr(rank, i, 1)
        if (c ~ /[1-8]/) {
            if (before) return 0
            sum += c
            before = 1
        } else if (c ~ /[PNBRQKpnbrqk]/) {
            sum++
            before = 0
        } else return 0
    }
    return sum
}

function bad_rank(ranks,    list, n, i, past) { # the first rank that has not eight squares; none where only their number is wrong
    n = split(ranks, list, "/")
    past = 0
    for (i = 1; i <= n; i++) {
        if (squares(list[i]) != 8) {
            mark = past + 1
            wide = length(list[i])
            return
        }
        past += length(list[i]) + 1
    }
}

function blanks(s) { # how many bytes are trimmed at its front
    match(s, /^[ \t\r]*/)
    return RLENGTH
}

function find_mark(s, number,    field, lead, first) {
    mark = 0
    wide = 1
    first = index(s, ";")
    if (number == 8) mark = 257
    else if (number == 9) mark = match(s, /[^ -~\t\r]/)
    else if (number == 10) mark = length(s) + 1
    else if (number == 13) {
        field = substr(s, first + 1)
        if (index(field, ";")) field = substr(field, 1, index(field, ";") - 1)
        mark = first + blanks(field) + 1
        wide = length(trimmed(field))
    } else if (number == 11 || number == 12 || (number >= 29 && number <= 31)) {
        field = substr(s, 1, first - 1)
        lead = blanks(field)
        field = trimmed(field)
        if (number == 11) bad_rank(substr(field, 1, match(field " ", / /) - 1))
        else word(field, number == 12 ? 2 : number - 26)
        if (number == 31) wide = length(field) - mark + 1
        if (mark) mark += lead
    }
    if (wide < 1) wide = 1
}

# ---- what is shown
function shown(s,    i, c, out) { # bytes that are no text, and the backslash, as \xHH
    out = ""
    for (i = 1; i <= length(s); i++) {
        c = substr(s, i, 1)
        out = out (c ~ /[ -~]/ && c != "\\" ? c : sprintf("\\x%02X", code[c] + 0))
    }
    return out
}

function repeated(c, n,    out) {
    out = ""
    while (n-- > 0) out = out c
    return out
}

function show_line(s, number,    from, to, front, size) {
    if (substr(s, length(s)) == "\r" && !(number == 8 && length(s) == 257)) s = substr(s, 1, length(s) - 1)
    find_mark(s, number)
    size = length(s)
    from = 1
    to = size
    if (size > WIDEST) {
        from = mark > AROUND ? mark - AROUND : 1
        to = from + 2 * AROUND < size ? from + 2 * AROUND : size
        printf "    bytes %d to %d of %d:\n", from, to, size
    }
    print "    " shown(substr(s, from, to - from + 1))
    if (!mark) return
    front = shown(substr(s, from, mark - from))
    size = length(shown(substr(s, mark, mark + wide - 1 > to ? to - mark + 1 : wide)))
    print "    " repeated(" ", length(front)) repeated("^", size > 1 ? size : 1)
}

function explain(number) {
    printf "line %s", rows
    if (files > 1) printf " (%s, line %d)", name[at], inside
    print ": " (number in called ? called[number] : "refused") " (" number ")"
    show_line(text, number)
    print "    why:  " (why[number] == "" ? "a number that docs/REFUSALS.md has not" : why[number])
    if (mend[number] != "") print "    mend: " mend[number]
    print ""
}

# ---- the rows
$1 == "lines" {
    last = $0
    next
}
{
    rows++
    if ($1 != rows "" || !next_line()) astray = 1
    else if ($2 == "refused") {
        refused++
        of[$3]++
        if ($3 + 0 > most) most = $3 + 0
        explain($3 + 0)
    } else loaded++
}

END {
    if (astray || next_line() || last != "lines " rows + 0 " loaded " loaded + 0 " refused " refused + 0) exit 1
    for (i = 1; i <= most; i++)
        if (of[i]) printf "%8d %s (%d): %s\n", of[i], called[i], i, why[i]
    print last
}
