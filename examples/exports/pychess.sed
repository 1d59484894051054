# Positions that PyChess saved as EPD, as lines of a collection: sed -f pychess.sed FILE.epd > FILE.txt
#
# Its operations fmvn and hmvc are the two counters, and become the fifth and sixth field. It saves no result: of a game that was won, ce says 32766 or -32766
# for the side to move, and that is one. A draw has ce 0, as an even position has, and a game that goes on has its score: such a line stays as it is, bin/ledger
# refuses it by its number, and who knows the result writes it there.
s/^\([^ ;]* w [^ ;]* [^ ;]*\) fmvn \([0-9]*\); hmvc \([0-9]*\);.* ce 32766;.*$/\1 \3 \2;1-0/
s/^\([^ ;]* b [^ ;]* [^ ;]*\) fmvn \([0-9]*\); hmvc \([0-9]*\);.* ce 32766;.*$/\1 \3 \2;0-1/
s/^\([^ ;]* w [^ ;]* [^ ;]*\) fmvn \([0-9]*\); hmvc \([0-9]*\);.* ce -32766;.*$/\1 \3 \2;0-1/
s/^\([^ ;]* b [^ ;]* [^ ;]*\) fmvn \([0-9]*\); hmvc \([0-9]*\);.* ce -32766;.*$/\1 \3 \2;1-0/
