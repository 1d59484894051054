# The blocks of commands of a page, each as files of a folder: FOLDER/K is what to do, and those beside it are the commands and what the page shows of them.
#
# A block is indented by four spaces, after an empty line or a comment. It is one of commands where it begins with `$ `, or with a word that is a command. After
# `$ ` stands a command, and up to the next one what it prints. What comments before a block say:
#   <!-- with NAME = FILE, .. -->     files that it needs, copied from the repository
#   <!-- needs COMMAND -->            it is run where the command is there
#   <!-- not run: WHY -->             it is not run; <!-- not run WORDS: WHY --> is said of its lines that have these words

function tell(text) { print text > (folder "/" block) }

function begins_commands(line) {
    return line ~ /^(\$ |(bin|\.ci|oracle|include|bench)\/[a-z])/ ||
        line ~ /^(awk|cat|cc|cmp|cp|echo|for|head|ls|parallel|pgn-extract|rt|rustc|sed|sha256sum|sort|split|wc|xxd) /
}

function begin(line) {
    within = begins_commands(line)
    if (!within) { forget(); return }
    block++
    tell("page " page ":" FNR)
    if (with != "") tell("with " with)
    if (needs != "") tell("needs " needs)
    if (whole != "") tell("not run: " whole)
    shows = line ~ /^\$ /
    item = 0
}

function add(line,    k) {
    if (!within) return
    for (k = 1; k <= marks; k++) if (index(line, words[k])) {
        sub(/ +#.*/, "", line)
        tell("line not run: " line " (" why[k] ")")
        met[k] = 1
        return
    }
    if (shows && sub(/^\$ /, "", line)) {
        item++
        print line > (folder "/" block "." item ".command")
        printf "" > (folder "/" block "." item ".shown")
    } else if (shows) print line > (folder "/" block "." item ".shown")
    else print line > (folder "/" block ".script")
}

function forget(    k) { with = needs = whole = ""; for (k = 1; k <= marks; k++) met[k] = 0; marks = 0 }

# A comment that is said of nothing is a fault.
function end(    k) {
    if (within) for (k = 1; k <= marks; k++) if (!met[k]) { print page ":" FNR ": no line has " words[k]; faults++ }
    if (within) forget()
    within = in_block = 0
}

function said(text) { if (in_block) end(); blank = 0; open_place = 1; sub(/ -->$/, "", text); return text }

/^<!-- with .* -->$/ { with = said(substr($0, 11)); next }
/^<!-- needs .* -->$/ { needs = said(substr($0, 12)); next }
/^<!-- not run: .* -->$/ { whole = said(substr($0, 15)); next }
/^<!-- not run .*: .* -->$/ {
    text = said(substr($0, 14))
    marks++
    words[marks] = why[marks] = text
    sub(/: .*$/, "", words[marks])
    why[marks] = substr(text, length(words[marks]) + 3)
    next
}
/^    / && (in_block || open_place) {
    line = substr($0, 5)
    if (!in_block) { in_block = 1; begin(line) }
    while (blank > 0) { add(""); blank-- }
    add(line)
    open_place = 0
    next
}
/^$/ { if (in_block) blank++; open_place = 1; next }
{
    blank = open_place = 0
    if (in_block) end()
    if (with needs whole != "" || marks) { print page ":" FNR ": a comment on commands, and none follow"; faults++; forget() }
}
END { if (in_block) end(); exit faults > 0 }
