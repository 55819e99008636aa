#!/usr/bin/env bash
# Tries each right and wrong example of docs/FORMAT.md's field table in examples/run.xml: a right one is not refused with code 5, a wrong
# one is, at the place of that element.
set -u
cd "$(dirname "$0")/.." || exit 2
work=$(mktemp -d) || exit 2
trap 'rm -rf "$work"' EXIT
right=0
wrong=0

# try FIELD TEXT CODE5: whether the flow with this text in the field's first element is refused for it.
try() {
  field=$1 text=$2 awk '
    BEGIN { open = "<" ENVIRON["field"] ">"; shut = "</" ENVIRON["field"] ">" }
    { at = index($0, open); to = index($0, shut)
      printf "%s%s%s", substr($0, 1, at + length(open) - 1), ENVIRON["text"], substr($0, to)
      print at - 1 > "/dev/stderr" }' examples/run.xml > "$work/flow.xml" 2> "$work/place"
  local answer due
  due="flow 5 $(cat "$work/place") 0 0"
  answer=$(./desk "$work/flow.xml" | sed -n 1p)
  if [ "$answer" = "$due" ]; then answer=5; fi
  if { [ "$3" = 5 ] && [ "$answer" = 5 ]; } || { [ "$3" != 5 ] && [[ "$answer" != 5 && "$answer" != "flow 5 "* ]]; }; then
    right=$((right + 1))
  else
    wrong=$((wrong + 1))
    echo "wrong: $1 '$2' is answered $answer"
  fi
}

while IFS='|' read -r _ fields _ good bad _; do
  good=${good#*\`} good=${good%\`*}
  bad=${bad#*\`} bad=${bad%\`*}
  [ "$bad" != " empty " ] || bad=
  for name in ${fields//,/ }; do
    try "$name" "$good" 0
    try "$name" "$bad" 5
  done
done < <(sed -n '/^## The fields/,$p' docs/FORMAT.md | grep -E '^\| [a-z]+_|^\| esercizio')

[ "$right" -ge 34 ] || { echo "only $right examples were tried"; wrong=1; }
[ "$wrong" -eq 0 ] && echo "$right examples of docs/FORMAT.md are as it says"
