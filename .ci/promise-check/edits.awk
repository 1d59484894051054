# Must-fail edits: which lines each one touches.

# ---- must-fail edits

# They are read when every file is known, in the format of `rt must-fail`.
function scan_edit(    line, file, old, says) {
    while ((getline line < path) > 0) {
        if (line ~ /^file: /) file = substr(line, 7)
        else if (line ~ /^old: /) old = substr(line, 6)
        else if (line ~ /^new:/) { apply_edit("crates/" crate "/" file, old); old = "" }
        else if (line !~ /^(file|old):/ && line ~ /[A-Za-z0-9]/) says = 1
    }
    close(path)
    if (!says) fault(edit_name(), edit_name(), 7, "no comment says on which input the edited program answers differently")
}

function edit_name() { return crate "::must-fail/" edit_word() ".edit" }

function edit_word(    name) {
    name = path
    sub(/^.*\//, "", name)
    sub(/\.edit$/, "", name)
    return name
}

function apply_edit(file, old,    n, i, found, at) {
    if (file !~ /\/(src|specs)\//) return
    n = old == "" ? 0 : lines_in[file]
    for (i = 1; i <= n; i++) if (index(raw[file, i], old)) {
        found++
        at = i
        if (index(substr(raw[file, i], index(raw[file, i], old) + 1), old)) found++
    }
    if (found == 1) mark_edited(file, at)
    else fault(edit_name(), edit_name(), 0, "its old text does not stand once in " file)
}

function mark_edited(file, at,    list, n, i) {
    n = split(items_in[file], list, " ")
    for (i = 1; i <= n; i++) if (first[list[i]] <= at && at <= last[list[i]]) edited[list[i]] = edited[list[i]] " " path " "
}
