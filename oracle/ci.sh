#!/usr/bin/env bash
# Builds the oracle and runs its checks, in under two minutes; stops at the first failure.
set -euo pipefail
here=$(cd "$(dirname "$0")" && pwd)
cd "$here"
oracle=${CARGO_TARGET_DIR:-$here/target}/release/oracle
work=$(mktemp -d)
trap 'rm -rf "$work"' EXIT

say() {
    echo "oracle: $*"
}

say "build, offline"
cargo build --release --offline --locked --quiet

say "the control files against the published ones"
./derive.sh

say "cases, sizes and the standard run"
"$oracle" check >"$work/check" || {
    cat "$work/check"
    exit 1
}
grep -c '^ok ' "$work/check" | sed 's/$/ cases and sizes agree/'
grep -e '^standard run' -e '^ranges' -e '^entries' -e '^forests of refused' -e '^each of the numbers' "$work/check"

say "every profile twice from one seed: the same script, the same output, no unexpected panic"
for profile in mix plain tiny bytes answers small limits large; do
    "$oracle" gen 11 300 $profile >"$work/script"
    "$oracle" gen 11 300 $profile | cmp - "$work/script"
    "$oracle" run <"$work/script" >"$work/out"
    "$oracle" run <"$work/script" | cmp - "$work/out"
    # A dump in full and its hash: as many lines, the results the same.
    "$oracle" run quiet <"$work/script" >"$work/quiet"
    awk 'NR % 2 == 1' "$work/out" >"$work/results"
    awk 'NR % 2 == 1' "$work/quiet" | cmp - "$work/results"
    # In batches: the results the same, with fewer dumps between them.
    "$oracle" run batch <"$work/script" | grep -v '^state ' | cmp - "$work/results"
    # With counts: the same but for the counts of peeks.
    "$oracle" run counted <"$work/script" | sed 's/ exceeded [0-9]*$//' | cmp - "$work/out"
    # Each peek as its searches comes to the same; written out there is none left but what is refused.
    "$oracle" searches <"$work/script" >"$work/searches"
    "$oracle" searches <"$work/searches" | cmp - "$work/searches"
    echo "$profile: $(wc -l <"$work/script") lines"
done

say "listings by searches, with the answers that a peek skips"
for profile in mix answers limits; do
    "$oracle" gen 11 300 $profile | sed -n 's/^book \(.*\)clock.*/\1/p' | tr -d ' ' >"$work/books"
    "$oracle" skips <"$work/books" >"$work/skips"
    sed 's/ skipped [0-9]*$//' "$work/skips" >"$work/out"
    "$oracle" lists <"$work/books" | cmp - "$work/out"
    grep -q ' skipped [1-9]' "$work/skips"
    echo "$profile: $(wc -l <"$work/books") books, $(grep -c ' skipped [1-9]' "$work/skips") lines whose peek skips an answer"
done

say "damaged books"
"$oracle" books 11 20000 >"$work/books"
"$oracle" books 11 20000 | cmp - "$work/books"
"$oracle" read <"$work/books" | sed 's/ goal .*//' | sort | uniq -c | tee "$work/read"
grep -q ' refused 32$' "$work/read"
grep -q ' accepted, desk refused 36$' "$work/read"

say "levels, beside all numberings of up to five goals"
for kind in plain few; do
    "$oracle" books 11 5000 $kind >"$work/books"
    "$oracle" books 11 5000 $kind | cmp - "$work/books"
    "$oracle" levels lines <"$work/books" | grep -e '^refused' -e '^0 ' | sed 's/^0 .*/levels/' | sort | uniq -c | tee "$work/levels"
    grep -q ' levels$' "$work/levels"
    grep -q ' refused 38$' "$work/levels"
done
"$oracle" numberings 11 20000

say "plain books as XSB text, and back; papers mended"
for tests in xsb mend; do
    cargo test --offline --locked --quiet $tests >"$work/tests" 2>&1 || {
        cat "$work/tests"
        exit 1
    }
    grep '^test result' "$work/tests"
done
"$oracle" books 11 5000 torn >"$work/books"
"$oracle" books 11 5000 torn | cmp - "$work/books"
"$oracle" mend damaged 11 100000

say "demand 3"
"$oracle" demand3 11 100000

say "bench"
"$oracle" bench

say "planted faults"
./faults.sh
say "all passed"
