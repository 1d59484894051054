# Builds by content what the toolchain proves, and keeps it: for bin/run, bin/fit and include/archive, which set `name`, who speaks, and `root`.
#
# What was built stands in target/built, beside a stamp of two lines: the checksum of all that it is made of, and its own. What has another
# content than its stamp says, or was made of another content than there is now, is not used and is built again. All is POSIX sh, with
# sha256sum, readlink and mktemp (coreutils), and flock, setsid and setpriv (util-linux).
room='' building=no
. "$root/bin/lib/say.sh"

# ---- the toolchain
find_kit() {
    for tool in sha256sum flock setsid setpriv; do
        command -v "$tool" >/dev/null || fail "the command $tool is not on the PATH"
    done
    rt=$(command -v rt) || fail "the Rattle toolchain's command rt is not on the PATH"
    kit=${RATTLE_HOME:-$(dirname "$(dirname "$(readlink -f "$rt")")")}
    machine=$(uname -m)
}

# ---- what a crate is made of
crates_of() { # CRATE: it and all that it depends on, as crates.txt has them, a line for each: its name, and its line
    awk -v wanted="$1" '
        function visit(crate,    uses, count, k) {
            if (!(crate in deps) || crate in seen) return
            seen[crate] = 1
            count = split(deps[crate], uses, " ")
            for (k = 1; k <= count; k++) visit(uses[k])
            print crate ":" line[crate]
        }
        { sub(/#.*/, ""); at = index($0, ":") }
        at { crate = $1; sub(/:.*/, "", crate); line[crate] = $0; deps[crate] = substr($0, at + 1) }
        END { visit(wanted) }' "$root/crates.txt"
}

# The files that a crate is made of; its must-fail edits, and what a program is tried on, are not among them.
sources_of() { # CRATE..
    cd "$root"
    crates=$*
    set --
    for crate in $crates; do
        for part in src specs proofs; do
            [ ! -e "crates/$crate/$part" ] || set -- "$@" "crates/$crate/$part"
        done
    done
    [ $# -eq 0 ] || find -L "$@" -type f -exec sha256sum {} + | LC_ALL=C sort
}

made_of() { # CRATE: one checksum of the toolchain's id, the lines of crates.txt, the sources, and the files that `beside` names
    lines=$(crates_of "$1")
    {
        "$rt" version </dev/null
        echo "$machine"
        printf '%s\n' "$lines"
        # shellcheck disable=SC2046
        (sources_of $(printf '%s\n' "$lines" | cut -d: -f1))
        [ ! -f "$root/HANDLES" ] || cat "$root/HANDLES"
        # shellcheck disable=SC2086
        [ -z "${beside:-}" ] || (cd "$root" && sha256sum $beside)
    } | sha256sum
}

# ---- what is kept
stamp_for() { # FILE MADE-OF
    printf 'made of %s\nitself  %s\n' "$2" "$(sha256sum <"$1")"
}

up_to_date() { # FILE MADE-OF
    [ -f "$1" ] && [ -f "$1.stamp" ] && [ "$(cat "$1.stamp")" = "$(stamp_for "$1" "$2")" ]
}

# A new file has the program's mode, which one that stands there would not take over.
keep() { # RESULT FILE MADE-OF: the result takes the file's place whole, and its stamp after it
    rm -f "$2.new" && cp "$1" "$2.new" && stamp_for "$2.new" "$3" >"$2.stamp.new" && mv -f "$2.new" "$2" && mv -f "$2.stamp.new" "$2.stamp"
}

# ---- one build at a time
# The lock is on the repository's folder, so that there is no file to be left behind: the system frees it when the last process of a build ends.
lock() {
    exec 9<"$root"
    got=0
    flock -n 9 || got=$?
    case $got in
    0) ;;
    1)
        say "another build is under way here; waiting for it"
        setpriv --pdeathsig KILL flock 9 || fail "cannot wait for the other build"
        ;;
    *) fail "cannot lock $root" ;;
    esac
}

unlock() { exec 9<&-; }

# ---- the end of a build, by itself or by a signal
end_provers() {
    [ "$building" = yes ] && [ -n "${!:-}" ] || return 0
    kill -KILL "-$!" "$!" 2>/dev/null || :
    wait "$!" 2>/dev/null || :
    turns=0
    while [ "$turns" -lt 20 ] && kill -0 "-$!" 2>/dev/null; do
        turns=$((turns + 1))
        sleep 0.05
    done
    building=no
}

clean() {
    [ -z "$room" ] || rm -rf "$room"
    [ -z "${file:-}" ] || rm -f "$file.new" "$file.stamp.new"
}

stop() { # STATUS
    trap '' HUP INT QUIT TERM
    end_provers
    exit "$1"
}

on_signals() {
    trap clean EXIT
    trap 'stop 129' HUP
    trap 'stop 130' INT
    trap 'stop 131' QUIT
    trap 'stop 143' TERM
}

off_signals() {
    clean
    room=''
    trap - EXIT HUP INT QUIT TERM
}

# ---- the build
writable() {
    why=$( (mkdir -p "$root/target/built" && : >"$file.new") 2>&1) || fail "it has to be built, and $root/target can't be written: ${why##*: }"
}

# Provers are a group of processes of their own, to be ended together; what they write beside out/ and target/ goes to a folder that is removed.
prove() { # CRATE COMMAND..: whether it ended well
    total=$(crates_of "$1" | wc -l)
    shift
    room=$(mktemp -d) && chmod 711 "$room" || fail "no temporary folder"
    building=yes
    (cd "$root" && TMPDIR=$room exec setsid "$root/bin/lib/prove" "$name" "$((total))" "$@") &
    proved=0
    wait "$!" || proved=$?
    end_provers
    rm -rf "$room"
    room=''
    [ "$proved" -eq 0 ]
}

# Without its stamp, `rt` links a program anew: it does not look whether the one that stands there is whole.
forget() { # CRATE RESULT
    case $2 in target/native/*) rm -f "$root/target/stamp/$1" ;; esac
    rm -f "$root/$2" "$root/$2.stamp"
}

# Whether what `rt ci` left is of these sources: they are those that bin/run --mark has noted, and it was made after that.
is_marked() { # RESULT FILE MADE-OF
    [ -f "$root/$1" ] && [ -f "$2.mark" ] && [ "$(cat "$2.mark")" = "$3" ] && [ -z "$(find "$root/$1" ! -newer "$2.mark")" ]
}

# Brings target/built/FILE up to date, where FILE is the last part of RESULT: what COMMAND leaves there once CRATE is proved.
build() { # CRATE RESULT COMMAND..
    crate=$1 result=$2 file=$root/target/built/${2##*/}
    shift 2
    if up_to_date "$file" "$(made_of "$crate")"; then return; fi
    lock
    on_signals
    while made=$(made_of "$crate") && ! up_to_date "$file" "$made"; do
        writable
        proved=0
        if [ "${taking:-no}" = no ] || ! is_marked "$result" "$file" "$made"; then
            case ${taking:-no}$result in yestarget/*) ;; *) forget "$crate" "$result" ;; esac
            prove "$crate" "$@" || proved=1
        fi
        if [ "$made" != "$(made_of "$crate")" ]; then
            say "a source was changed during the build; building again"
            continue
        fi
        [ "$proved" -eq 0 ] || fail "could not be built"
        keep "$root/$result" "$file" "$made" || fail "what was built could not be kept"
        rm -f "$file.mark"
        break
    done
    unlock
    off_signals
}
