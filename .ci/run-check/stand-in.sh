# A kit and a repository that stand in for the toolchain and the library: `rt` in seconds, programs that are shell scripts. For .ci/test-run.

# As the toolchain's: a crate is proved by processes in the background, a program stands half written for a while, what was proved is not
# proved again, and something lies in TMPDIR while it goes on. `run` and `lib` work in a crate's folder, and leave a program's stamp unless a source
# was changed meanwhile; `ci` begins with no program. `run` would run the program too, here it only prints something. `check` and `staticlib` are those
# of the older toolchain, which alone compiled for another processor. A source with BROKEN is not proved. Each call is noted in $work/calls, each
# prover in $work/provers; two at once are a fault. The machine is the one that $work/machine names. A module is the program's text; an object, and
# what cc links of it, has one line more, which says what it is for.
put_kit() {
    tools=$work/kit/on/aarch64/toolchain/bin
    mkdir -p "$work/kit/bin" "$work/kit/toolchain/lib" "$tools" "$work/kit/on/x86_64/toolchain/bin"
    echo 'kit 1' >"$work/kit/KIT-ID"
    {
        echo '#!/bin/sh'
        echo "work='$work'"
        cat <<'RT'
alone() {
    other=$(cat "$work/busy" 2>/dev/null)
    if [ -n "$other" ] && [ -d "/proc/$other" ] && ! grep -q '^State:.Z' "/proc/$other/status"; then
        echo "two at once" >>"$work/faults"
        echo "rt: its dependency base is not proved"
        exit 1
    fi
    echo $$ >"$work/busy"
}

prover() {
    exec sh -c 'echo $$ >>"$1/provers" && exec sleep "$2"' sh "$work" "$(cat "$work/seconds")"
}

prove() {
    (prover) &
    wait
    if grep -q BROKEN crates/*/src/*; then
        echo "rt: chose --jobs 2 for $1"
        echo "src/main.rt:1:1: error: BROKEN is not proved"
        echo "crate $1: modules loaded=26 checked=7"
        echo "logic=not-proved"
        echo "rt: the library $1 did not build, so nothing above it was checked"
        rm -f "$work/busy"
        exit 1
    fi
}

compile() { # SOURCE OBJECT
    cp "$1" "$scratch/module.bc"
    "${RATTLE_HOME:-$work/kit}/on/$(uname -m)/toolchain/bin/clang" --target=x86_64 -x ir "$scratch/module.bc" -o "$scratch/module.o" || return
    mkdir -p target/obj && cp "$scratch/module.o" "$2"
}

[ "$1" != version ] || { cat "$work/kit/KIT-ID" && exit; }
alone
echo "$*" >>"$work/calls"
case $1 in
run) crate=${PWD##*/} && cd ../.. && exec 3>&1 >&2 ;;
lib) crate=${PWD##*/} && cd ../.. ;;
ci) crate=ledger && rm -rf crates/*/out ;;
*) crate=$2 ;;
esac
case $1 in
run | ci) result=crates/$crate/out/$crate stamps=crates/$crate/out/$crate.stamp source=crates/$crate/src/main.rt ;;
lib) result=crates/$crate/out/lib$crate.a stamps=crates/$crate/out/rlib.stamp source=crates/$crate/src/lib.rt ;;
check) result=target/bin/$crate stamps=target/stamp/$crate source=crates/$crate/src/main.rt ;;
staticlib) result=target/staticlib/lib$crate.a stamps=target/stamp/$crate source=crates/$crate/src/lib.rt ;;
esac
mkdir -p target/bin target/stamp target/staticlib "crates/$crate/out"
scratch=$(mktemp -d)
stamp=$(cat crates/*/src/* | cksum)
echo "only=0 proved=0"
if [ "$1" = check ] || [ "$1" = run ] && [ "$(cat "$stamps" 2>/dev/null)" = "$stamp" ]; then
    echo "rt: nothing has changed since the last proved build, by $stamps, so nothing is checked now"
else
    rm -f "$stamps"
    echo "rt: chose --jobs 2 for $crate"
    head -n 1 "$source" >"$result"
    prove "$crate"
    echo "fn $crate::main: proved"
    case $1 in
    run | ci) cp "$source" "$result" ;;
    check) compile "$source" "target/obj/$crate.o" && cp "$source" "$result" ;;
    lib | staticlib) cp "$source" "$scratch/$crate.o" && rm -f "$result" && ar rc "$result" "$scratch/$crate.o" ;;
    esac
    [ "$1" = ci ] || [ "$stamp" != "$(cat crates/*/src/* | cksum)" ] || echo "$stamp" >"$stamps"
    echo "crate $crate: modules loaded=0 checked=54"
    echo "logic=proved functions=1"
fi
rm -rf "$scratch" "$work/busy"
[ "$1" != run ] || { echo "rt: running out/$crate" && echo "rows that nobody asked for" >&3 && exit 7; }
RT
    } >"$work/kit/bin/rt"
    printf '#!/bin/sh\nshift 2\nexec sh "$@"\n' >"$work/kit/toolchain/lib/ld-linux-x86-64.so.2"
    printf '#!/bin/sh\necho emulated\nexec "$@"\n' >"$tools/qemu-x86_64"
    cat >"$tools/clang" <<'CLANG'
#!/bin/sh
for word in "$@"; do
    case $word in
    --target=*) machine=${word#--target=} ;;
    *.bc) module=$word ;;
    *.o) object=$word ;;
    esac
done
{ cat "$module" && echo "# for ${machine%%-*}"; } >"$object"
CLANG
    cp "$tools/clang" "$work/kit/on/x86_64/toolchain/bin/clang"
    cat >"$work/kit/bin/cc" <<'CC'
#!/bin/sh
while [ $# -gt 0 ]; do
    case $1 in
    -o) out=$2 && shift ;;
    *.o) object=$1 ;;
    esac
    shift
done
{ echo '#!/bin/sh' && cat "$object"; } >"$out" && chmod +x "$out"
CC
    printf '#!/bin/sh\ncat "%s"\n' "$work/machine" >"$work/kit/bin/uname"
    chmod +x "$work/kit/bin"/* "$tools"/* "$work/kit/on/x86_64/toolchain/bin/clang" "$work/kit/toolchain/lib/ld-linux-x86-64.so.2"
}

# The scripts as they are, over five small crates, in a folder with a space in its name, on the machine that `machine` names.
put_tree() {
    rm -rf "$tree" "$work/calls" "$work/provers" "$work/busy" "$work/faults"
    for crate in base other ledger abi abi_more; do mkdir -p "$tree/crates/$crate/src"; done
    printf '# a comment\nbase:\nother:\nledger: base # what it uses\nabi staticlib: base\nabi_more staticlib: base\n' >"$tree/crates.txt"
    echo 'base 1' >"$tree/crates/base/src/lib.rt"
    echo 'other 1' >"$tree/crates/other/src/lib.rt"
    for crate in abi abi_more; do echo "$crate 1: extern \"C\"" >"$tree/crates/$crate/src/lib.rt"; done
    cp -R "$here/../bin" "$here/../include" "$tree/"
    rm -rf "$tree/include/target"
    program 'echo rows && echo whole >&3'
    echo "${machine:-x86_64}" >"$work/machine"
    echo 0.1 >"$work/seconds"
    : >"$work/calls"
    : >"$work/provers"
}

program() { # LINE..: the program is a shell script of these lines; the first stands for the half-written one
    { echo '# ledger' && printf '%s\n' "$@"; } >"$tree/crates/ledger/src/main.rt"
}
