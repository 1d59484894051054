# Runs a program and says whether its output is whole: for bin/run, and for bin/lib/run-installed, which takes its place where programs are installed.
#
# A program gives no status of its own. Once its last row is written it writes `whole` and a line feed to descriptor 3, a pipe to this script.

# The program is killed when its shell is, and that shell when this script is, however that happens. What it says on descriptor 3 and how
# it ended come back by pipe, so no disk has to have room for it. A standard output that is closed is closed for the program too.
whole() { # COMMAND ARG..
    output='>&-'
    if (: 4>&1) 2>/dev/null; then exec 4>&1 && output='>&4 4>&-'; fi
    # shellcheck disable=SC2016
    said=$(exec setpriv --pdeathsig KILL sh -c 'setpriv --pdeathsig KILL "$@" 3>&1 '"$output"'; echo "status $?"' sh "$@") || :
    [ "$said" = 'whole
status 0' ]
}
