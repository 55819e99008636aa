#!/usr/bin/env bash
# What ./training does around the proved program: it answers examples/lesson.txt as examples/lesson.out says, and its exit statuses are those that its --help states.
# The last line is 'N right', and the exit status 0, where nothing went wrong.
set -u
root=$(cd "$(dirname "$(readlink -f "${BASH_SOURCE[0]}")")/.." && pwd -P)
cd "$root" || exit 2
work=$(mktemp -d) || exit 2
trap 'rm -rf "$work"' EXIT
right=0
wrong=0
limit=60

# is STATUS WHAT WORDS..: runs ./training with these words, keeps its output in $work/out and $work/err, and holds its exit status to STATUS.
is() {
  local status=$1 what=$2
  shift 2
  timeout "$limit" ./training "$@" > "$work/out" 2> "$work/err" < "$work/in"
  local got=$?
  if [ "$got" -eq "$status" ]; then
    right=$((right + 1))
  else
    fault "$what: exit status $got and not $status"
  fi
}
fault() {
  wrong=$((wrong + 1))
  echo "wrong: $1"
  sed 's/^/  out: /' "$work/out"
  sed 's/^/  err: /' "$work/err"
}
# holds WHAT TEST..: the test succeeds.
holds() {
  local what=$1
  shift
  if "$@"; then right=$((right + 1)); else fault "$what"; fi
}
out_is() { [ "$(cat "$work/out")" = "$1" ]; }
err_has() { grep -qF -- "$1" "$work/err"; }
err_lines() { [ "$(wc -l < "$work/err")" -eq "$1" ]; }

: > "$work/in"
limit=3600
is 0 "the program is proved and built"
limit=60
is 0 "the lesson" examples/lesson.txt
holds "the lesson is examples/lesson.out" cmp -s "$work/out" examples/lesson.out
holds "the lesson has no complaint" err_lines 0
cp examples/lesson.txt "$work/in"
is 0 "the lesson from standard input"
holds "the lesson from standard input is examples/lesson.out" cmp -s "$work/out" examples/lesson.out

echo 'execute 000471 mandato 2021 12 2 2021-03-03' > "$work/in"
cp examples/table-2.bin "$work/table"
is 0 "a table that is taken" --table "$work/table"
holds "an order of the table" grep -qx '  0, executed: 50.00' "$work/out"
holds "a table is only read" cmp -s "$work/table" examples/table-2.bin

is 1 "a folder as script" examples
holds "its cause" err_has "examples: it is a folder"
if timeout "$limit" bash -c './training <&-' > "$work/out" 2> "$work/err"; then fault "closed input"; else right=$((right + 1)); fi
holds "closed input is said" err_has "standard input is closed"

for words in "--bogus" "a b" "-" "--help a" "--table" "--table t a b" "--table t --bogus"; do
  # shellcheck disable=SC2086
  is 2 "arguments $words" $words
  holds "one line of usage for $words" err_lines 1
  holds "no answer for $words" out_is ""
done
is 2 "a table without a name" --table ""
is 1 "a script that is not there" nowhere.txt
holds "its cause" err_has "cannot read nowhere.txt: No such file or directory"
is 1 "a table that is not there" --table nowhere.bin examples/lesson.txt
holds "that it is not there" err_has "the table's file cannot be opened"
is 1 "a table that is not valid" --table examples/table-1.bin examples/lesson.txt
holds "that it is not valid" err_has "the table is not valid"
holds "no answer on a table that is refused" out_is ""
is 0 "help" --help
holds "help says how" grep -q '^usage: ./training' "$work/out"

[ "$wrong" -eq 0 ] && echo "$right right"
[ "$wrong" -eq 0 ]
