# The position after each move of games, with its counters, as lines of a collection: pgn-extract -s -C -V -N -w 100000 --fencomments FILE.pgn | awk -f fen.awk
#
# --fencomments puts a FEN in braces after each move; -C, -V and -N leave out all else that may stand in braces or brackets. The game's result is its tag.
/^\[Result "/ {
    split($0, part, "\"")
    result = part[2]
}
{
    while (match($0, /\{ [^}]* \}/)) {
        print substr($0, RSTART + 2, RLENGTH - 4) ";" result
        $0 = substr($0, RSTART + RLENGTH)
    }
}
