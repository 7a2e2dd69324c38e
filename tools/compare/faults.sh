#!/bin/sh
# Breaks copies of the program, one line each, and sees that the comparison and
# `replay` catch every one (of one fault `edges`, since no stored run has so many
# nodes); and that all pass the copy that is not broken.
#   tools/compare/faults.sh SOURCE_FOLDER
# SOURCE_FOLDER, or else ORACLE_SOURCE, is the oracle's (tools/oracle/build.sh).
# Nothing is proved here: the copies are compiled as `rt try` does. The
# interpreter gives no answer on `replay`, since the stored runs take more steps
# than it goes; the run that is compiled with checks does.
set -eu
here=$(cd "$(dirname "$0")" && pwd)
root=$(cd "$here/../.." && pwd)
source=$(cd "${1:-${ORACLE_SOURCE:?is not set, and no folder of the source is given (tools/oracle/README.md)}}" && pwd)
work=$(mktemp -d)
trap 'rm -rf "$work"' EXIT
failed=0

# fault NAME FILE OLD NEW [RUNS [PROGRAM]]: the first line that is OLD becomes NEW.
# With no FILE the copy is as it was. RUNS are compared (1 20000), and PROGRAM is
# run (replay), or none where what is wrong shows in no listing.
fault() {
    runs=${5:-1 20000}
    program=${6:-replay}
    copy=$work/copy
    rm -rf "$copy"
    mkdir "$copy"
    cp -R "$root/crates" "$root/crates.txt" "$copy"
    rm -rf "$copy"/crates/*/out
    wanted=1
    if [ -n "$2" ]; then
        awk -v old="$3" -v new="$4" '!done && $0 == old { print new; done = 1; next } { print }
            END { exit !done }' "$root/crates/$2" >"$copy/crates/$2" || {
            echo "$1: no such line in crates/$2" >&2
            exit 2
        }
    else
        wanted=0
    fi
    echo "== $1"
    "$here/unproved.sh" "$copy/crates" "$work/library" >/dev/null
    EXPORTS_LIBRARY=$work/library COMPARE_TARGET=$work/target "$here/build.sh" "$source" \
        >"$work/built" 2>&1 || { cat "$work/built" >&2; exit 2; }
    status=0
    # shellcheck disable=SC2086
    "$work/target/release/compare" $runs >"$work/compared" || status=$?
    grep -E 'DIFFERENCE|smallest run|^bytes|^slices|no difference|runs compared' "$work/compared"
    [ "$status" -eq "$wanted" ] || { echo "compare: status $status, wanted $wanted"; failed=1; }
    [ "$program" = none ] && return 0
    # The checks take stack too, more than 8 MB beside the tables of `edges`.
    (cd "$copy/crates/$program" && ulimit -s 65536 && rt try --seconds 600 <stdin) >"$work/tried" 2>"$work/said" || :
    diff "$copy/crates/$program/stdout" "$work/tried" | sed -n "s/^> /$program: /p" | head -n1
    status=0
    cmp -s "$work/tried" "$copy/crates/$program/stdout" || status=1
    [ -s "$work/tried" ] && [ "$status" -eq "$wanted" ] || { echo "$program: not as it should be"; failed=1; }
}

fault 'no fault' '' '' ''
fault 'no fault' '' '' '' '--many 1 2000' edges
fault "a lam's annotation is quoted" ast/src/cells.rt \
    '        Kind::Lam => true,' '        Kind::Lam => false,'
fault 'two premises are cited the wrong way round' producer/src/typing.rt \
    '                    cite([x, y]),' '                    cite([y, x]),'
fault '20 while there is space' run/src/entry.rt \
    '    let cellroom = cap(cells / 8, 4294967295);' '    let cellroom = cap(cells / 9, 4294967295);'
fault 'a refused conversion is not ended' producer/src/answers.rt \
    '            Err(left.refused(refused.refusal))' '            Err(refused)'
fault "a refused call's rows have the next call's number" run/src/entry.rt \
    '        mark(rows, s.rows, turn.state.rows, i);' \
    '        mark(rows, s.rows, turn.state.rows, if turn.number == 0 { i } else { i + 1 });' \
    '1 20000' none
fault 'types after one that is refused are skipped' run/src/entry.rt \
    '        Err(Unfit::Refused(refusal, next)) => refused(state, refusal, after(at, next, left)),' \
    '        Err(Unfit::Refused(refusal, next)) => refused(state, refusal, after(at, next, 0)),' \
    '--many 1 2000'
fault "the types' nodes are added up" syntax/src/limits.rt \
    '            Ok(call) => self.type_fitting(ty, call.head, call.nodes),' \
    '            Ok(call) => self.type_fitting(ty, call.head, call.nodes + (ty - call.next - 1)),' \
    '--many seeds' edges
[ "$failed" -eq 0 ] && echo "every fault is caught"
exit "$failed"
