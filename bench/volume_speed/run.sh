#!/usr/bin/env bash
# Measures a served volume over the drive in memory, and the plain program beside it. The first word is how many rounds.
set -eu
here=$(cd "$(dirname "$0")" && pwd)
top=$(cd "$here/../.." && pwd)
rounds=${1:-20}
copy=$(mktemp -d)
trap 'rm -rf "$copy"' EXIT

tar -C "$top" --exclude=out -cf - crates crates.txt HANDLES | tar -C "$copy" -xf -
cd "$copy/crates/ltfs_server"
sed -i '/^use /,$d' src/main.rt
cat "$here/main.rt.in" >> src/main.rt
rustc -C opt-level=3 -C target-cpu=native -o "$copy/plain" "$here/plain.rs"

both() {
  echo "$*"
  "$copy/crates/ltfs_server/out/ltfs_server" "$@"
  "$copy/plain" "$@"
}

rt run -- held 1 > "$copy/first.log"
both held "$rounds"
for sessions in 1 16; do
  for blocks in 1 4 16 64 256 1024; do
    both reads "$sessions" "$blocks" "$rounds"
  done
done
