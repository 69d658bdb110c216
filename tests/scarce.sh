#!/bin/sh
# Refuses each request for memory in turn: `tests/scarce.sh`, or `tests/scarce.sh NAME..` for some of the programs under
# tests/scarce. It copies the repository to a folder of its own, adds the programs there, and runs each without a proof.
# A program makes each call twice, and checks that each call either answers "out of memory" and leaves its object as it
# was, or answers as with ample memory. `rt try` always refuses the 10,000th request. So a program reads a number N from
# standard input, and first makes so many requests that the Nth of its own is the 10,000th. In this way one build is
# enough. It prints how often each call was refused. Each program states its range of N: at the first N it is still
# setting up, and at the last nothing is refused. With STEP=7 in the environment it tries only each 7th N. Exits with 1
# if a call does anything else.
set -u
top=$(cd "$(dirname "$0")/.." && pwd)
copy=$(mktemp -d)
trap 'rm -rf "$copy"' EXIT
cp -r "$top/crates" "$top/crates.txt" "$top/HANDLES" "$copy/"
rm -rf "$copy"/crates/*/out

# Adds a program as a crate, with the shared files that it names as modules.
add() {
  folder="$copy/crates/scarce_$1/src"
  mkdir -p "$folder"
  cp "$top/tests/scarce/$1/main.rt.txt" "$folder/main.rt"
  for module in judging homes; do
    if grep -q "^mod $module;" "$folder/main.rt"; then cp "$top/tests/scarce/$module.rt.txt" "$folder/$module.rt"; fi
  done
  echo "scarce_$1: $(sed -n 's,^// Uses: ,,p' "$folder/main.rt") anyhow" >> "$copy/crates.txt"
}

# Runs a program with each of its requests refused, and prints the findings.
sweep() {
  cases="$copy/cases_$1"
  mkdir -p "$cases"
  from=$(sed -n 's,^// Requests: \([0-9]*\) to .*,\1,p' "$copy/crates/scarce_$1/src/main.rt")
  last=$(sed -n 's,^// Requests: [0-9]* to ,,p' "$copy/crates/scarce_$1/src/main.rt")
  for number in $(seq "$from" "${STEP:-1}" "$last") "$last"; do echo "$number" > "$cases/$(printf %04d "$number")"; done
  found="$copy/found_$1"
  # One step of the interpreter: only the compiled run counts.
  (cd "$copy/crates/scarce_$1" && rt try --steps 1 --fail-alloc 10000 --cases "$cases") > "$found" 2>&1
  status=$?
  first=ok
  case $from in
    1) ;;
    *) grep -E '^(refused|WRONG|none)' "$found" | head -n 1 | grep -q '^refused before all' || first=late ;;
  esac
  grep -E '^(refused|WRONG)' "$found" | sort | uniq -c
  if [ $status != 0 ] || [ $first != ok ] || grep -q '^WRONG' "$found" || ! grep -q '^none refused' "$found"; then
    grep -B 1 '^WRONG' "$found"
    tail -n 3 "$found"
    echo "FAILED: $1"
    return 1
  fi
  echo "ok: $1, $(grep -c '^refused' "$found") refusals"
}

if [ $# = 0 ]; then set -- $(cd "$top/tests/scarce" && ls -d */ | tr -d /); fi
git -C "$copy" init -q
for name in "$@"; do add "$name"; done
failed=0
for name in "$@"; do sweep "$name" || failed=1; done
exit $failed
