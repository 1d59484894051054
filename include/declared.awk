# The library's functions as a file declares them, sorted lines of `NAME(TYPE, TYPE) TYPE` in the types that C is handed: header, Rust or Rattle.
function base(word) {
    if (word == "double") return "f64"
    if (word == "size_t") return "usize"
    if (sub(/^chess_/, "", word)) return record(word)
    if (sub(/^uint/, "u", word) || sub(/^int/, "i", word)) sub(/_t$/, "", word)
    return word
}

# What the header calls chess_some_words is SomeWords in Rust and Rattle.
function record(words,    parts, count, k, name) {
    count = split(words, parts, "_")
    for (k = 1; k <= count; k++) name = name toupper(substr(parts[k], 1, 1)) substr(parts[k], 2)
    return name
}

# `const uint64_t *bitboards`, `double weights[8]`, `uint8_t side`
function in_c(given,    points, words) {
    points = given ~ /[*[]/ ? (given ~ /^const / ? "*const " : "*mut ") : ""
    sub(/^const /, "", given)
    split(given, words, " ")
    return points base(words[1])
}

# `bitboards: *const u64`, `side: u8`; of Rattle, a slice is a pointer and a length, a reference and an array a pointer
function in_rust(given,    points) {
    sub(/^[a-z_]*: */, "", given)
    if (!sub(/^&/, "", given)) return given
    points = sub(/^mut */, "", given) ? "*mut " : "*const "
    if (sub(/^\[/, "", given) && !sub(/;.*/, "", given)) sub(/\]/, ", usize", given)
    return points given
}

function declared(name, given, answer,    count, k, parts, types) {
    count = split(given, parts, ",")
    for (k = 1; k <= count; k++) {
        gsub(/^ +| +$/, "", parts[k])
        if (parts[k] != "") types = types (types == "" ? "" : ", ") (c ? in_c(parts[k]) : in_rust(parts[k]))
    }
    print name "(" types ") " answer | "LC_ALL=C sort"
}

{ sub(/\/\/.*/, ""); text = text " " $0 }

END {
    c = FILENAME ~ /\.h$/
    gsub(/[ \t]+/, " ", text)
    start = c ? "[a-z0-9_]+ chess_[a-z_]+\\(" : "fn chess_[a-z_]+\\("
    while (c && match(text, /\/\*/)) {
        rest = substr(text, RSTART + 2)
        text = substr(text, 1, RSTART - 1) " " substr(rest, index(rest, "*/") + 2)
    }
    while (match(text, start)) {
        split(substr(text, RSTART, RLENGTH - 1), head, " ")
        text = substr(text, RSTART + RLENGTH)
        given = substr(text, 1, index(text, ")") - 1)
        text = substr(text, index(text, ")") + 1)
        answer = base(head[1])
        if (!c) { match(text, /^ *-> *[A-Za-z0-9]+/); answer = substr(text, RSTART, RLENGTH); sub(/^ *-> */, "", answer) }
        declared(head[2], given, answer)
    }
}
