#!/bin/sh
# Runs Netpbm's own test suite with the installed tools, and then with the stand-ins of helpers/netpbm-shim before them.
#
#     apt-get source netpbm-free && sh scripts/netpbm_suite.sh netpbm-free-*/test
#
# It tells the sums of both, each test that ends otherwise with the stand-ins, and a table of the calls that went to the
# tool itself, with the reason. PNMPIPE names the program, by itself bin/pnmpipe. It wants bash and Netpbm.
set -eu
root=$(cd "$(dirname "$0")/.." && pwd)
[ -f "${1-}/Execute-Tests" ] || { echo "netpbm_suite.sh: name the folder that has Execute-Tests" >&2; exit 2; }
PNMPIPE=${PNMPIPE:-$root/bin/pnmpipe}
[ -x "$PNMPIPE" ] || { echo "netpbm_suite.sh: there is no $PNMPIPE: run make first" >&2; exit 2; }
for wanted in bash pamcut cksum; do
    command -v "$wanted" > /dev/null || { echo "netpbm_suite.sh: $wanted isn't installed" >&2; exit 2; }
done
work=$(mktemp -d)
trap 'rm -rf "$work"' EXIT
cp -R "$1" "$work/test"
chmod +x "$work"/test/*.test "$work/test/Execute-Tests" "$work/test/Available-Testprog"
(cd "$work/test" && ls -- *.test > Test-Order)
mkdir "$work/shims"
for name in $(python3 "$root/helpers/tool_table.py"); do
    ln -s "$root/helpers/netpbm-shim" "$work/shims/$name"
done
[ -e "$work/shims/pnmcut" ] || { echo "netpbm_suite.sh: there are no stand-ins" >&2; exit 2; }

# suite NAME PATH: runs all tests, and leaves a line for each in $work/NAME
suite() {
    mkdir "$work/run-$1"
    (cd "$work/run-$1" && env PATH="$2" BUILDDIR="$work" CHECK_TYPE=install PNMPIPE="$PNMPIPE" \
        PNMPIPE_SHIM_LOG="$work/log-$1" bash "$work/test/Execute-Tests" > "$work/said-$1" 2>&1 < /dev/null) || true
    grep -aE '^[^ ]*\.test: (UNEXPECTED |EXPECTED )?(SUCCESS|FAILURE|NOT TESTABLE)$' "$work/said-$1" \
        | LC_ALL=C sort > "$work/$1" || true
    printf '%s: %s passed of %s, %s not testable\n' "$1" "$(grep -c ': SUCCESS' "$work/$1")" \
        "$(grep -vc ': NOT TESTABLE' "$work/$1")" "$(grep -c ': NOT TESTABLE' "$work/$1")"
}

suite netpbm "$PATH"
suite stand-ins "$work/shims:$PATH"
diff "$work/netpbm" "$work/stand-ins" || true
echo
echo "calls by the stand-ins that pnmpipe answered, by tool:"
awk -F '\t' '$2 == "pnmpipe" { count[$1]++ } END { for (tool in count) print count[tool] "\t" tool }' \
    "$work/log-stand-ins" | sort -rn
echo
echo "calls that went to the tool itself, by tool and reason:"
awk -F '\t' '$2 == "netpbm" { count[$1 "\t" $3]++ } END { for (call in count) print count[call] "\t" call }' \
    "$work/log-stand-ins" | sort -rn
