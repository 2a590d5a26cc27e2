#!/usr/bin/env bash
# The gate. Its last line is 'N passed, M failed'; status 0 where none failed.
set -u
cd "$(dirname "$0")/.."
crates=$(ls -d crates/*/src | wc -l)
cat <<TXT
This proves those of $crates crates that have not passed on this machine before, tries a planted bug of each row of the table
in docs/THEOREMS.md, which the prover has to refuse, runs all tests and programs, the examples, and cases once for each of a sample of their
allocations, with that one refused. README.md says how long that takes; it prints little until its end.
TXT
log=$(mktemp)
# One core for each check, and three checks at once where there are four cores, each of which takes 1 to 5 GB: more cores for a check take
# more processor time, and hardly less of the clock's (docs/PROOFS.md).
cores=$(nproc)
export RT_JOBS=${RT_JOBS:-$((cores < 2 ? cores : cores < 4 ? 2 : 3))}
rt ci | tee "$log"
status=${PIPESTATUS[0]}
last=$(tail -n 1 "$log")
passed=$(sed -nE 's/^([0-9]+) passed, ([0-9]+) failed.*/\1/p' <<<"$last")
failed=$(sed -nE 's/^([0-9]+) passed, ([0-9]+) failed.*/\2/p' <<<"$last")
if [ -z "$passed" ]; then exit 1; fi
[ "$status" -eq 0 ] || [ "$failed" -gt 0 ] || failed=1
steps="links believe counts tools"
# These run what was just proved. Where it was not, they would prove it once more before they fail. Pages are opened where a browser is.
proved="planted cases examples limits one_core pages marks reports refusals"
for browser in chromium chromium-browser google-chrome; do
    if command -v "$browser" >/dev/null; then proved="$proved page"; break; fi
done
if [ "$failed" -gt 0 ]; then echo "not tried, since rt ci failed: ${proved// /, }"; else steps="$steps $proved"; fi
for step in $steps; do
    if make --no-print-directory "$step"; then passed=$((passed + 1)); else failed=$((failed + 1)); fi
done
# What this took over all cores, of which there may be two at work: the second line of `times` is of all that it has called.
times >"$log"
spent=$(awk 'NR == 2 { gsub(/[ms]/, " "); print int(($1 * 60 + $2 + $3 * 60 + $4) / 60 + 0.5) }' "$log")
rm -f "$log"
echo "It took $spent processor minutes."
echo "$passed passed, $failed failed"
[ "$failed" -eq 0 ]
