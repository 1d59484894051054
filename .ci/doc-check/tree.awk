# What there is: files, folders, crates, declared names.

# there[path] for every file and folder, without ./
function note_path(path) {
    sub(/^\.\//, "", path)
    there[path] = 1
    while (sub(/\/[^\/]*$/, "", path)) there[path] = 1
}

function read_crates(    line, word) {
    while ((getline line < "crates.txt") > 0) {
        sub(/#.*/, "", line)
        if (sub(/:.*/, "", line) && split(line, word, " ")) is_crate[word[1]] = 1
    }
    close("crates.txt")
    split("std check libc io os bytes", kit, " ")
    for (line in kit) is_kit[kit[line]] = 1
}

# declares(file, name): whether an .antt file declares the name: a definition, a law, a constructor or a field.
function declares(file, name) {
    if (!(file in is_read)) read_declared(file)
    return (file, name) in declared
}

function read_declared(file,    line, word, n, i) {
    is_read[file] = 1
    while ((getline line < file) > 0) {
        sub(/^[ \t]+/, "", line)
        while (sub(/^(abbrev|unfoldable|pub|record|data) +/, "", line)) continue
        gsub(/«|»/, "", line)
        n = split(line, word, " ")
        for (i = 1; i <= n && word[i] != ":" && word[i] !~ /^[({=]/; i++) continue
        if (i <= n && word[i] !~ /^=/) while (--i > 0) declared[file, word[i]] = 1
    }
    close(file)
}

# names(crate, word): whether a source of a crate declares the word: a function, a constant, a type, a module, a variant, a field.
function names(crate, word,    file) {
    if (!(crate in sources_read)) {
        sources_read[crate] = 1
        for (file in there) if (index(file, "crates/" crate "/src/") == 1 && file ~ /\.rt$/) read_source(crate, file)
    }
    return (crate, word) in named_in
}

function read_source(crate, file,    line, word, n, i) {
    word[1] = file
    sub(/^.*\//, "", word[1])
    sub(/\.rt$/, "", word[1])
    named_in[crate, word[1]] = 1
    while ((getline line < file) > 0) {
        sub(/\/\/.*/, "", line)
        gsub(/[^A-Za-z0-9_]+/, " ", line)
        n = split(line, word, " ")
        for (i = 1; i <= n; i++) named_in[crate, word[i]] = 1
    }
    close(file)
}
