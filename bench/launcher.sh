#!/usr/bin/env bash
# Tests the launcher's cases in a folder for temporary files, with a stand-in for the program and one for rt.
# usage: bench/launcher.sh [PROGRAM]     PROGRAM stands in for bkd; where it is left out, a script that prints its words
set -u
top=$(cd "$(dirname "${BASH_SOURCE[0]}")/.." && pwd)
room=$(mktemp -d)
trap 'rm -rf "$room"' EXIT
failed=0

# a checkout of three crates, one of them large, with the launcher and the release's scripts
mkdir -p "$room/at/crates/"{bkd/src,low/src,low/specs,index_core/src} "$room/at/release" "$room/tools" "$room/index"
cp "$top/bkd" "$room/at/bkd"
cp "$top"/release/{build,checksum,compare,help,make} "$room/at/release/"
mkdir "$room/at/docs"
cp "$top/docs/commands.txt" "$room/at/docs/"
printf '# crates\nlow: clap\nindex_core: low\nbkd: index_core low   # the program\n' > "$room/at/crates.txt"
echo 'fn main() {}' > "$room/at/crates/bkd/src/main.rt"
echo 'fn low() {}' > "$room/at/crates/low/src/lib.rt"
if [ $# -gt 0 ]; then
    cp "$1" "$room/program"
else
    cat > "$room/program" << 'PROGRAM'
#!/usr/bin/env bash
echo "program $*"
[ $# -eq 0 ] && echo "usage: bkd FOLDER"
exit "${STATUS-0}"
PROGRAM
fi
cat > "$room/tools/rt" <<RT
#!/usr/bin/env bash
case \$1 in
    check) echo "\${PWD##*/} proved"; [ -z "\${BROKEN-}" ] ;;
    all) for it in low index_core bkd; do echo "== \$it"; echo "logic=proved"; done; echo "== summary"; [ -z "\${BROKEN-}" ] ;;
    run) mkdir -p out; cp "$room/program" out/bkd; out/bkd; exit 1 ;;
esac
RT
# the program and the crates below, side by side; PROVE is the status
mkdir "$room/at/bench"
cat > "$room/at/bench/prove.py" <<PROVE
#!/usr/bin/env bash
[ "\$*" = bkd ] || exit 2
[ "\${PROVE-0}" -eq 0 ] || exit "\$PROVE"
printf '== %s\n' low index_core bkd
mkdir -p "$room/at/crates/bkd/out"
cp "$room/program" "$room/at/crates/bkd/out/bkd"
PROVE
chmod +x "$room/program" "$room/tools/rt" "$room/at/bench/prove.py"
PATH=$room/tools:$PATH
cd "$room" || exit 1

# holds WHAT STATUS TEXT: the last call ended with this status, and said this somewhere
holds() {
    if [ "$status" -eq "$2" ] && grep -q -e "$3" said; then
        echo "ok: $1"
    else
        echo "FAILED: $1: status $status, and it said:"
        cat said
        failed=1
    fi
}
# lacks WHAT TEXT: the last call didn't say this
lacks() {
    if grep -q -e "$2" said; then
        echo "FAILED: $1"
        failed=1
    else
        echo "ok: $1"
    fi
}
call() {
    "$@" > said 2>&1 < /dev/null
    status=$?
}

call at/bkd index run
holds "with no program it says how one is built" 1 './bkd --build proves and builds it'
lacks "and builds nothing" building
call at/bkd --build
holds "--build tells of a crate below" 0 '1 of 3 crates, low'
holds "--build tells of each crate" 0 '3 of 3 crates, bkd'
call at/bkd index run --cache 3
holds "what was built runs" 0 'program index run --cache 3'
call at/release/make
holds "the release is made" 0 'is the program of the sources'
call at/release/compare
holds "the release is compared" 0 'byte for byte'
rm -r at/crates/bkd/out
call at/bkd index run
holds "the release runs in a fresh checkout" 0 'program index run'
lacks "and nothing is said of it" bkd:
echo 'fn low() { }' > at/crates/low/src/lib.rt
call at/bkd index run
holds "over other sources it runs as well" 0 'program index run'
holds "and that is told" 0 'of other sources than these: ./bkd --build'
lacks "and nothing is built" building
PROVE=1 call at/bkd --build
holds "a crate that isn't proved ends a build" 1 'was not built'
PROVE=2 BROKEN=1 call at/bkd --build
holds "so does one in the order that stands for it" 1 'was not built'
PROVE=2 call at/bkd --build
holds "which is taken where the kit can't be asked" 0 '1 of 3 crates, index_core'
call at/bkd index run
lacks "what was built of other sources runs without a word" 'other sources'
call at/release/compare
holds "a release of other sources fails" 1 'OTHER sources'
at/release/checksum > at/release/sources.sha256
echo more >> at/release/bkd
call at/release/compare
holds "a release that differs fails" 1 'NOT what the gate built'
at/release/make > said
for change in "mv at/crates/low/src/lib.rt at/crates/low/src/other.rt" "rm at/crates/low/src/other.rt" \
    "mkdir at/crates/low/src/more" "cp at/crates.txt at/crates/low/src/new.rt"; do
    $change
    call at/bkd index run
    [ "$change" = "mkdir at/crates/low/src/more" ] || holds "another source: $change" 0 'other sources'
    at/release/checksum > at/release/sources.sha256
done
at/release/make > said 2>&1
for files in 5 8 12; do
    rm -rf at/.bkd-build
    (ulimit -n "$files" && at/release/checksum) > said 2>&1
    status=$?
    [ -e at/.bkd-build/sources.sha256 ] && [ "$status" -ne 0 ] && { echo "FAILED: a stamp of what failed"; failed=1; }
done
call at/bkd index run
holds "a look that failed leaves nothing wrong" 0 'program index run'
lacks "and says nothing" 'other sources'

for words in "" "index" "nowhere fly" "nowhere run" "help run --cache 3"; do
    # shellcheck disable=SC2086
    STATUS=1 call at/bkd $words
    [ $# -gt 0 ] || holds "words reach the program: $words" 1 "program $words"
done
for words in help --help; do
    call at/bkd $words
    holds "$words says the commands" 0 'bkd FOLDER load --columns A,B'
done
call at/bkd help load
holds "help of a command says its options" 0 'names of columns, parted by commas'
call at/bkd help fly
holds "help of no command says which there are" 1 'these are: run load'
call at/bkd --version
holds "--version says the sources" 0 "sources $(cat at/release/sources.sha256)"
ln -s at/bkd linked
call linked index run
lacks "it is found through a link" 'No such file'
if [ $# -eq 0 ]; then
    mkdir bare
    for it in bash sh dirname readlink find sort xargs sha256sum mktemp mkdir rm mv touch cat; do
        ln -s "$(command -v "$it")" "bare/$it"
    done
    PATH=$room/bare call at/bkd --build
    holds "with no rt it says so" 1 'there is no rt'
fi
if [ $failed -eq 0 ]; then
    echo "all of the launcher's cases hold"
fi
exit $failed
