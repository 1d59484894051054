1 1 11
2 2 -517
3 refused 28
4 refused 24
5 refused 25
6 refused 26
7 refused 25
8 refused 27
9 refused 13
lines 9 loaded 2 refused 7
