#!/usr/bin/env bash
# Shows that `oracle demand3` sees faults: each patch of the folder faults is put into a copy of logic.rs,
# the copy is built, and demand3 has to complain. Usage: faults.sh [SEED [BOOKS]]
set -euo pipefail
case ${1:-} in
-h | --help)
    sed -n '2,3s/^# //p' "$0"
    exit 0
    ;;
esac
here=$(cd "$(dirname "$0")" && pwd)
seed=${1:-1}
books=${2:-30000}
work=$(mktemp -d)
trap 'rm -rf "$work"' EXIT
cp -r "$here/Cargo.toml" "$here/Cargo.lock" "$here/src" "$here/engine" "$here/standins" "$work"
export CARGO_TARGET_DIR="$work/target"
missed=0
seen=0

build() {
    (cd "$work" && cargo build --profile faults --offline -q) 2>"$work/build" || {
        cat "$work/build" >&2
        echo "faults: $1 doesn't build" >&2
        exit 1
    }
}

# Without a fault there is nothing to complain of.
build "the copy"
if ! "$CARGO_TARGET_DIR/faults/oracle" demand3 "$seed" "$books" >"$work/out" 2>&1; then
    cat "$work/out"
    echo "faults: demand3 complains without a fault" >&2
    exit 1
fi
echo "no fault: $(head -n 1 "$work/out")"

for fault in "$here"/faults/*.patch; do
    name=$(basename "$fault" .patch)
    cp "$here/engine/src/logic.rs" "$work/engine/src/logic.rs"
    patch -s "$work/engine/src/logic.rs" "$fault"
    build "$name"
    status=0
    timeout 60 "$CARGO_TARGET_DIR/faults/oracle" demand3 "$seed" "$books" >"$work/out" 2>&1 || status=$?
    complaint=$(grep -m 1 COMPLAINT "$work/out" || true)
    if [ "$status" -ne 0 ] && [ -n "$complaint" ]; then
        seen=$((seen + 1))
        echo "seen $name ($(head -n 1 "$fault")): $complaint"
    else
        missed=$((missed + 1))
        echo "MISSED $name ($(head -n 1 "$fault")), status $status"
    fi
done
echo "$seen faults seen, $missed missed"
[ "$seen" -gt 0 ] && [ "$missed" -eq 0 ]
