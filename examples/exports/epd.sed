# Lines of EPD, each with its game's result in an operation, as lines of a collection: sed -f epd.sed FILE.epd > FILE.txt
#
# Ranks, side, castling rights and en passant square stay, then `;` and the result; all operations go. The result is c1 in what pgn-extract
# writes, and c9 "..", in quotes, in sets that were made for fitting. Empty lines, which pgn-extract has between games, go too. A line that is neither
# stays as it is: bin/ledger refuses it by its number, and so nothing is lost in silence.
/^[[:space:]]*$/d
s/^\([^ ;]* [wb] [^ ;]* [^ ;]*\) c0 .*; c1 \([^;]*\);.*$/\1;\2/
s/^\([^ ;]* [wb] [^ ;]* [^ ;]*\) \(.*; *\)*c9 "\([^"]*\)";.*$/\1;\3/
