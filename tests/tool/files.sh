#!/usr/bin/env bash
# The tool with files as they may be: too long, cut short, links, read-only, on a full disk; and its words and exit statuses. The program is
# $1. The last line is 'N right', and the exit status 0, where nothing went wrong.
set -u
tool=$(readlink -f "$1") || exit 2
root=$(cd "$(dirname "$(readlink -f "${BASH_SOURCE[0]}")")/../.." && pwd -P)
work=$(mktemp -d) || exit 2
trap 'chmod -R u+w "$work"; rm -rf "$work"' EXIT
chmod 755 "$work"
cd "$work" || exit 2
right=0
wrong=0

# is STATUS COMMAND..: runs it, keeps its output in out and err, and holds its exit status to STATUS.
is() {
  local status=$1
  shift
  timeout 60 "$@" > out 2> err < /dev/null
  local got=$?
  if [ "$got" -eq "$status" ]; then right=$((right + 1)); else fault "exit status $got and not $status: $*"; fi
}
fault() {
  wrong=$((wrong + 1))
  echo "wrong: $1"
  sed 's/^/  out: /' out
  sed 's/^/  err: /' err
}
holds() {
  if "$@"; then right=$((right + 1)); else fault "$*"; fi
}
out_has() { grep -qF -- "$1" out; }
err_has() { grep -qF -- "$1" err; }
same() { cmp -s "$1" "$2"; }
absent() { [ ! -e "$1" ]; }
# json: out has an object a line; the names of their members, command by command, are added to the file names.
json() {
  python3 -c '
import json
def names(value):
    if isinstance(value, dict):
        for name, member in value.items():
            yield name
            yield from names(member)
    if isinstance(value, list):
        for member in value:
            yield from names(member)
found = [name for line in open("out") for name in names(json.loads(line))]
open("names", "a").write("".join(name + "\n" for name in found))'
}

run=$root/examples/run.xml
is 0 "$tool" open t --abi 01234 000471:4 471:4
holds out_has "t: opened for ABI 01234 and 2 bodies, 880 bytes"
cp t fresh

# Wrong use: status 2, how it is right on standard error, and nothing made.
for words in "" "nothing" "open" "open n 471:4" "open n --abi" "open n --abi 01234 471" "open n --abi 01234 471:x" "open n --abi 1 --abi 2 471:1" \
  "flow t" "flow" "flow t $run --edition 3" "flow t $run --other" "flow t $run $run --message m.xml" "flow t $run --value codice_ente=U" \
  "flow t $run --message m.xml --value no=U" "execute t 471 mandato 2021 1 1" "execute t 471 order 2021 1 1 2021-03-03" \
  "execute t 471 mandato 2021 1 x 2021-03-03" "execute t 471 mandato 2021 1 1 3.3.2021" "execute t 471 mandato 2021 1 1 2021-03-03 more" \
  "totals" "totals t 471 471" "close t 471" "close t 471 x" "close t 471 2021 more" "close t 471 65536" "list t" "journal t 471" "convert t" "check" "check t t" "replay t.log" "help nothing"; do
  # shellcheck disable=SC2086
  is 2 "$tool" $words
  holds err_has usage
done
holds absent n
holds absent m.xml
holds same t fresh
for command in open flow execute reverse totals list journal close convert salvage check replay; do
  is 0 "$tool" "$command" --help
  holds out_has "usage: hondivole $command"
  holds grep -q "^\.BR \"$command " "$root/docs/man/hondivole.1"
done
is 0 "$tool" --version

# A flow taken, one refused, and their words for programs.
is 0 "$tool" flow t "$run"
holds out_has "taken, 1 of 2 orders accepted"
holds out_has "refused, 13: the order's line amounts don't sum to its total"
is 1 "$tool" flow t "$root/examples/field.xml"
holds out_has 'refused, 5: importo_mandato "00150.00" at byte 375 breaks: wrong form'
is 1 "$tool" flow t "$run" "$root/examples/markup.xml" "$root/examples/other-bank.xml" --json
holds json
holds out_has '"code":6'
holds err_has "flow 2 of 3"
is 0 "$tool" flow t "$root/examples/c/opi.xml" --edition 2
is 1 "$tool" flow t "$root/examples/c/opi.xml"
holds out_has "refused, 3: the flow's markup breaks"
cp t before
is 3 "$tool" flow t "$run" nowhere.xml
holds err_has "nowhere.xml: No such file"
holds same t before
head -c 40000 /dev/zero | tr '\0' ' ' > long.xml
is 1 "$tool" flow t long.xml
holds out_has "refused, 2: the flow is longer than 32,768 bytes"
is 0 "$tool" execute t 000471 mandato 2021 12 1 2021-03-03
is 1 "$tool" execute t 000471 mandato 2021 12 1 2021-03-03 --json
holds json
holds out_has '"code":21'
is 1 "$tool" execute t 000471 mandato 2021 12 2 2021-04-02
holds out_has "refused, 28: the date is no TARGET day"
is 1 "$tool" reverse t '4 71' mandato 2021 12 1 2021-03-03
is 1 "$tool" list t 0471
holds out_has "refused, 7: no body of the table has this code"
is 0 "$tool" list t 000471 --json
holds json
is 0 "$tool" totals t --json
holds json
is 0 "$tool" check t
is 0 "$tool" replay t.log again
holds same t again

# Messages: written whole; none where the values or the flow are wrong, or the place can't be written, and then the flow isn't taken.
cat > values << 'END'
# of the school 000471
codice_ente=UFABCD
descrizione_ente=I.C. Giovanni Pascoli
codice_fiscale_ente=80012345678
codice_tramite_ente=A2A-12345678
codice_tramite_BT=A2A-87654321
data_ora_creazione_flusso=2021-03-01T09:31:00+01:00
data_ora_esito_operazione=2021-03-01T09:30:30+01:00
END
is 0 "$tool" open m --abi 01234 000471:4 471:4
cp m before
is 1 "$tool" flow m "$run" --message m.xml --values values
holds out_has "refused, 41: identificativo_flusso_BT hasn't 1 to 140 bytes of text"
is 3 "$tool" flow m "$run" --message nowhere/m.xml --values values --value identificativo_flusso_BT=BT-238444
holds absent m.xml
holds same m before
is 1 "$tool" flow m "$root/examples/field.xml" --message m.xml --values values --value identificativo_flusso_BT=BT-238444
holds absent m.xml
is 0 "$tool" flow m "$run" --message m.xml --values values --value identificativo_flusso_BT=BT-238444
holds same m.xml "$root/examples/messages/run.xml"
cp m before
ln -s m.log to-log
for out in m ./m.log m.lock m.new to-log; do
  is 2 "$tool" flow m "$run" --message "$out" --values values --value identificativo_flusso_BT=BT-238444
  holds same m before
done
is 0 "$tool" check m
# A place that is there and is no file: nothing is taken, and what is there stays.
mkdir folder
for out in folder /dev/null; do
  is 3 "$tool" flow m "$run" --message "$out" --values values --value identificativo_flusso_BT=BT-238444
  holds err_has "a message can't be put here"
  holds same m before
  holds absent "$out.new"
done
holds test -d folder -a -c /dev/null
{
  cat values
  head -c 65536 /dev/zero | tr '\0' '#'
} > long-values
is 3 "$tool" flow m "$run" --message n.xml --values long-values --value identificativo_flusso_BT=BT-238444
holds err_has "this is longer than 65536 bytes"
holds same m before

# Names and lines that would command a terminal are escaped.
printf 'code\033[2J=x\n' > bad-values
is 3 "$tool" flow m "$run" --message n.xml --values bad-values
holds err_has "'code\\u{1b}[2J=x' is no NAME=TEXT"
printf '\033]0;x\007\n' > $'j\033[2J'
is 3 "$tool" journal t 000471 $'j\033[2J'
holds err_has "j\\u{1b}[2J: line 1 is no KIND"
cp "$root/examples/field.xml" $'f\033[2J'
is 1 "$tool" flow m $'f\033[2J'
holds out_has "f\\u{1b}[2J: refused, 5"

# Journals.
printf '# 3 March\nmandato 2021 12 1 100.00\n\n' > j
is 0 "$tool" journal t 000471 j
printf 'mandato 2021 12 1 100.01\n' > j
is 1 "$tool" journal t 000471 j
holds out_has "refused, 31"
printf 'mandato 2021 12 1\n' > j
is 3 "$tool" journal t 000471 j
holds err_has "j: line 1 is no KIND"

# Years closed: each refusal, what is left, and the same from the log.
is 0 "$tool" open y --abi 01234 000471:1 471:4
is 0 "$tool" flow y "$run"
sed 's/<esercizio>2021</<esercizio>2022</' "$run" > run-2022.xml
cp y before
for words in "000471 1999:37: no year of 2000 to 2099" "000471 2100:37: no year of 2000 to 2099" "0471 2021:7: no body of the table has this code" \
  "000471 2022:38: the body has an order of an earlier year" "000471 2021:39: an acquired order of this year has a waiting line"; do
  # shellcheck disable=SC2086
  is 1 "$tool" close y ${words%%:*}
  holds out_has "${words%%:*}: refused, ${words#*:}"
  holds same y before
done
is 0 "$tool" flow y run-2022.xml
holds out_has "refused, 15: the body has no empty slot"
for line in 1 2; do
  is 0 "$tool" execute y 000471 mandato 2021 12 "$line" 2021-03-03
done
is 0 "$tool" close y 000471 2021
holds out_has "000471 2021: closed, 1 order removed"
is 0 "$tool" list y 000471
holds out_has "000471: 0 orders in 1 slot, closed up to 2021"
is 0 "$tool" list y 471
holds out_has "471: 0 orders in 4 slots"
is 0 "$tool" totals y 000471
holds out_has "000471: 0 slots used, paid 0.00"
is 1 "$tool" close y 000471 2021
holds out_has "refused, 36: the body has closed this year, or a later one"
is 1 "$tool" flow y "$run"
holds out_has "refused, 36: the body has closed this year, or a later one"
is 1 "$tool" reverse y 000471 mandato 2021 12 1 2021-03-03
holds out_has "refused, 16"
is 0 "$tool" flow y run-2022.xml
holds out_has "taken, 1 of 2 orders accepted"
is 0 "$tool" list y 000471 --json
holds json
holds out_has '"slots":1,"closed":2021,"orders":[{"kind":"mandato","esercizio":2022'
is 1 "$tool" close y 000471 2022 --json
holds json
holds out_has '{"taken":false,"code":39,"refusal":"an acquired order of this year has a waiting line","removed":0}'
is 0 "$tool" close y 471 2099 --json
holds out_has '{"taken":true,"code":0,"removed":0}'
is 0 "$tool" check y
holds out_has "close 471 2099, code 0"
is 0 "$tool" replay y.log y-again
holds same y y-again
# A record of a closed year is none of a valid table, and a repair blanks it: byte 41 of the first entry is the year's lower one.
printf '\346' | dd of=y-again bs=1 seek=$((16 + 41)) conv=notrunc status=none
is 1 "$tool" totals y-again
is 0 "$tool" salvage y-again y-repaired
holds out_has "the slot at byte 112 of y-again: blanked"
is 0 "$tool" list y-repaired 000471
holds out_has "000471: 0 orders in 1 slot, closed up to 2022"

# A table of the old form; a table that was there before its log.
is 0 "$tool" convert "$root/examples/table-1.bin" c
holds same c "$root/examples/table-2.bin"
is 1 "$tool" convert c d
holds absent d
mkdir taken-over
cp fresh taken-over/f
is 0 "$tool" flow taken-over/f "$run"
is 0 "$tool" check taken-over/f
is 0 "$tool" replay taken-over/f.log taken-over/again
holds same taken-over/f taken-over/again

# A damaged table: a byte of the first record, then one of the head.
cp t damaged
printf '\377' | dd of=damaged bs=1 seek=$((16 + 48 * 2 + 8)) conv=notrunc status=none
cp damaged kept
is 1 "$tool" flow damaged "$run"
is 0 "$tool" salvage damaged repaired
holds out_has "repaired: repaired, 1 slot blanked"
holds out_has "the slot at byte 112 of damaged: blanked"
is 0 "$tool" salvage damaged repaired-2 --json
holds json
holds same damaged kept
is 0 "$tool" flow repaired "$run"
is 0 "$tool" check repaired
is 0 "$tool" replay repaired.log repaired-again
holds same repaired repaired-again
printf '\377' | dd of=damaged bs=1 seek=3 conv=notrunc status=none
is 1 "$tool" salvage damaged n
holds out_has "refused, 34"
holds absent n

# A table is made where there is nothing yet.
is 3 "$tool" open t --abi 01234 471:4
holds err_has "there is such a file already"
is 3 "$tool" convert "$root/examples/table-1.bin" t
is 3 "$tool" replay t.log t
holds same t again
is 3 "$tool" open nowhere/t --abi 01234 471:4
is 1 "$tool" open n --abi 01234 471:4 471:4
holds out_has "refused, 9"
holds absent n
holds absent n.log
holds absent n.lock

# No table has the name of a file beside a table.
for name in n.log n.lock n.new; do
  is 3 "$tool" open "$name" --abi 01234 471:4
  holds err_has "no table is named"
  is 3 "$tool" convert "$root/examples/table-1.bin" "$name"
  is 3 "$tool" salvage damaged "$name"
  is 3 "$tool" replay t.log "$name"
  holds absent "$name"
  cp fresh "$name"
  is 3 "$tool" flow "$name" "$run"
  holds err_has "no table is named"
  holds same "$name" fresh
  holds absent "$name.log"
  is 0 "$tool" totals "$name"
  rm "$name"
done

# A new table and what stands beside it are their user's alone; a log and a lock made later are like the table.
for name in t t.log t.lock; do
  holds test "$(stat -c %a "$name")" = 600
done
cp fresh taken-over/g
chmod 640 taken-over/g
(umask 077 && exec "$tool" flow taken-over/g "$run" --message taken-over/g.xml --values values --value identificativo_flusso_BT=BT-1) > out 2> err
for name in g g.log g.lock g.xml; do
  holds test "$(stat -c %a "taken-over/$name")" = 640
done

# Too long, cut short, nothing in it, a folder, nothing at all.
is 0 "$tool" open big --abi 01234 1:512 2:172
holds test "$(stat -c %s big)" = 65776
cp big before
for bytes in 65792 65793 1000000; do
  cp before big
  truncate -s "$bytes" big
  cp big longer
  is 1 "$tool" check big
  holds out_has "refused, 1: the table isn't valid"
  is 1 "$tool" flow big "$run"
  holds same big longer
done
cp t before
head -c 879 before > t
is 1 "$tool" totals t
is 1 "$tool" flow t "$run"
holds test "$(stat -c %s t)" = 879
: > t
is 1 "$tool" flow t "$run"
rm t
is 3 "$tool" flow t "$run"
is 3 "$tool" open t --abi 01234 471:4
holds err_has "t.log"
is 0 "$tool" replay t.log t
holds same t before
is 0 "$tool" check t
is 3 "$tool" totals taken-over
is 3 "$tool" totals nowhere

# A log that isn't this table's, one that is torn, one that is damaged.
cp t.log log
cp fresh t
is 3 "$tool" flow t "$run"
holds err_has "this log doesn't end with the table that is there"
holds same t fresh
is 3 "$tool" check t
cp before t
printf 'entry 00000153 1fef413790a30662\nnumber' >> t.log
is 0 "$tool" check t
is 1 "$tool" reverse t 471 mandato 2021 1 1 2021-03-03
is 0 "$tool" replay t.log again2
holds same t again2
sed 's/esercizio>2021</esercizio>2022</' t.log > damaged.log
is 3 "$tool" replay damaged.log n
holds err_has "on this is no log"
holds absent n
# One that is damaged before whole entries: the change that only adds an entry looks at the last one, but what can't be one torn entry isn't cut
# off.
cp t.log log
cp damaged.log t.log
is 3 "$tool" check t
printf 'entry 00000153 1fef413790a30662\nnumber' >> t.log
cp t.log kept
is 3 "$tool" check t
is 3 "$tool" flow t "$run"
holds err_has "log is damaged"
holds same t.log kept
holds same t before
is 3 "$tool" replay t.log n
holds absent n
cp log t.log

# Another program's file that has the log's name stays.
cp fresh foreign
for text in '09:30 the desk opens' 'entry of 3 March: the desk opens at 09:30' 'entry 1'; do
  echo "$text" > foreign.log
  cp foreign.log kept
  is 3 "$tool" flow foreign "$run"
  holds err_has "log is damaged"
  is 3 "$tool" check foreign
  is 3 "$tool" replay foreign.log n
  holds same foreign.log kept
  holds same foreign fresh
  rm foreign
  is 3 "$tool" open foreign --abi 01234 471:4
  holds same foreign.log kept
  holds absent foreign
  cp fresh foreign
done
head -c 300 /dev/zero > foreign.log
is 0 "$tool" flow foreign "$run"
is 0 "$tool" check foreign
holds out_has ": flow 1, code 0, 1 of 2 orders accepted, $(stat -c %s "$run") bytes"
is 1 "$tool" flow foreign "$root/examples/field.xml"
is 0 "$tool" check foreign --json
holds json
holds out_has '"last":"flow 1","last_code":5,"last_orders":0,"last_accepted":0,"last_bytes":'

# Of several flows those before a fault stand, and the fault says so: here the log has no room for the second.
is 0 "$tool" open several --abi 01234 000471:4 471:4
# shellcheck disable=SC2016
is 3 bash -c 'trap "" XFSZ; ulimit -f 3; exec "$0" "$@"' "$tool" flow several "$run" "$run"
holds err_has "1 of 2 flows were answered before: $(readlink -f several.log): File too large"
holds out_has "taken, 1 of 2 orders accepted"
is 0 "$tool" check several
holds out_has ", 2 calls logged"

# Symbolic links: the table is replaced, not the link, and the log stands beside the table.
mkdir links
ln -s ../t links/l
ln -s nothing links/dangling
is 0 "$tool" reverse links/l 000471 mandato 2021 12 1 2021-03-03
holds test -L links/l
holds absent links/l.log
is 0 "$tool" check t
holds out_has "reverse 000471 mandato 2021 12 1 2021-03-03"
is 3 "$tool" open links/dangling --abi 01234 471:4
holds absent links/nothing
chmod 640 t
is 0 "$tool" execute links/l 000471 mandato 2021 12 1 2021-03-03
holds test "$(stat -c %a t)" = 640

# A disk that is full: a limit on a file's length, as which the log or the new table is too long; then a small disk, where one can be made.
is 0 "$tool" open full --abi 01234 000471:40 471:40
cp full before
# shellcheck disable=SC2016
is 3 bash -c 'trap "" XFSZ; ulimit -f 4; exec "$0" "$@"' "$tool" flow full "$run"
holds err_has "File too large"
holds same full before
holds absent full.new
is 0 "$tool" flow full "$run"
is 0 "$tool" check full
cp full before
# shellcheck disable=SC2016
is 3 bash -c 'trap "" XFSZ; ulimit -f 1; exec "$0" "$@"' "$tool" flow full "$root/examples/school.xml"
holds same full before
is 0 "$tool" check full
is 0 "$tool" replay full.log full-again
holds same full full-again
mkdir small
# shellcheck disable=SC2016
if unshare -rm true 2> /dev/null; then
  is 0 unshare -rm bash -c '
    mount -t tmpfs -o size=64k none small && "$0" open small/t --abi 01234 000471:100 471:100 || exit 9
    for times in $(seq 60); do
      cp small/t kept
      "$0" flow small/t "$1" > told && continue
      [ $? -eq 3 ] && [ "$times" -gt 3 ] && cmp small/t kept && exec "$0" check small/t
      exit 8
    done
    exit 7' "$tool" "$run"
  holds err_has "No space left on device"
else
  echo "tests/tool/files.sh: no small disk can be made here, so a full one was tried by a limit on a file's length alone"
fi
is 3 bash -c "'$tool' totals fresh > /dev/full"
holds err_has "standard output"

# No permission: root has every one, so this is tried as somebody else.
as_user=()
[ "$(id -u)" -ne 0 ] || as_user=(setpriv --reuid=65534 --regid=65534 --clear-groups)
cp "$run" run.xml
chmod 644 run.xml fresh
if "${as_user[@]}" "$tool" totals fresh > /dev/null 2>&1; then
  mkdir closed
  cp fresh closed/t
  chmod 555 closed
  is 3 "${as_user[@]}" "$tool" flow closed/t run.xml
  holds err_has "Permission denied"
  holds same closed/t fresh
  is 0 "${as_user[@]}" "$tool" totals closed/t
  is 0 "${as_user[@]}" "$tool" check closed/t
  is 3 "${as_user[@]}" "$tool" open closed/n --abi 01234 471:4
  chmod 000 closed/t
  is 3 "${as_user[@]}" "$tool" totals closed/t
  # A lock that can't be opened is a lock; whoever only looks needs none.
  chmod 777 closed
  chmod 644 closed/t
  : > closed/t.lock
  chmod 000 closed/t.lock
  is 0 "${as_user[@]}" "$tool" check closed/t
  is 3 "${as_user[@]}" "$tool" flow closed/t run.xml
  holds err_has "t.lock: Permission denied"
  holds same closed/t fresh
else
  echo "tests/tool/files.sh: nobody else can run the program here, so permissions were not tried"
fi

# Every member of what is told for programs is in docs/TOOL.md.
is 0 "$tool" open j1 --abi 01234 471:4 --json
holds json
is 0 "$tool" journal fresh 471 /dev/null --json
holds json
is 0 "$tool" replay t.log t-json --json
holds json
sed -n '/^## For programs/,/^## /p' "$root/docs/TOOL.md" > told
holds test "$(sort -u names | wc -l)" -ge 34
for name in $(sort -u names); do
  holds grep -qF "\`$name\`" told
done

[ "$wrong" -eq 0 ] && echo "$right right"
[ "$wrong" -eq 0 ]
