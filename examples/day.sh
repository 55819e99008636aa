#!/usr/bin/env bash
# A day at the desk for two schools, 000471 and 471: flows, a refusal explained, messages, the bank's notices, its journal, totals, a year closed,
# and how the day's table can be made again from its log. What it prints is examples/day.out. The program is $HONDIVOLE, or 'hondivole' of the PATH.
set -u
examples=$(cd "$(dirname "$(readlink -f "${BASH_SOURCE[0]}")")" && pwd -P)
program=${HONDIVOLE:-hondivole}
day=$(mktemp -d) || exit 2
trap 'rm -rf "$day"' EXIT
cd "$day" || exit 2

told() { printf '\n# %s\n' "$*"; }
# A command as it is typed, what it answers, and its exit status where that isn't 0. The clock's time is left out.
hondivole() {
  printf '$ hondivole %s\n' "$*"
  "$program" "$@" 2>&1 | sed -E 's/[0-9]{4}-[0-9]{2}-[0-9]{2}T[0-9:]{8}Z/TIME/'
  local status=${PIPESTATUS[0]}
  [ "$status" -eq 0 ] || echo "(exit status $status)"
}

# What the schools send: the program of 471 numbers its orders as that of 000471 does.
cp "$examples/school.xml" pascoli.xml
sed 's/>000471</>471</' "$examples/school.xml" > verdi.xml
sed 's/>000471</>471</' "$examples/c/opi.xml" > verdi-opi.xml
sed 's/<importo_mandato>150.00</<importo_mandato>150,00</' "$examples/school.xml" > pascoli-comma.xml
sed -e 's/INSERIMENTO/VARIAZIONE/' -e 's/>150.00</>170.00</' -e 's/>50.00</>70.00</' "$examples/school.xml" > pascoli-changed.xml
cat > pascoli.values << 'END'
codice_ente=UFABCD
descrizione_ente=I.C. Giovanni Pascoli
codice_fiscale_ente=80012345678
codice_tramite_ente=A2A-12345678
codice_tramite_BT=A2A-87654321
data_ora_creazione_flusso=2021-03-01T09:31:00+01:00
data_ora_esito_operazione=2021-03-01T09:30:30+01:00
END

echo "# The bank opens a table for two schools."
hondivole open desk.table --abi 01234 000471:40 471:40

told "Both send their first flow, with the same numbers: they are two bodies. The first wants to be told what became of it."
hondivole flow desk.table pascoli.xml --message esito.xml --values pascoli.values --value identificativo_flusso_BT=BT-1
grep -o '<esito_[a-z]*>\|<numero_[a-z]*>[0-9]*\|<esito_operazione>[A-Z ]*' esito.xml
hondivole flow desk.table verdi.xml

told "The first corrects an amount. A comma is no point, and the answer says where it stands; then the correction is taken."
hondivole flow desk.table pascoli-comma.xml
hondivole flow desk.table pascoli-changed.xml

told "A flow that comes a second time changes nothing: each order is refused, with the reason."
hondivole flow desk.table verdi.xml

told "The second school's new program sends the header of OPI."
hondivole flow desk.table verdi-opi.xml --edition 2

told "The bank's notices. 3 March 2021 is a TARGET day, Good Friday isn't; and what was paid isn't paid twice."
hondivole execute desk.table 000471 mandato 2021 12 1 2021-03-03
hondivole execute desk.table 000471 mandato 2021 12 2 2021-03-03
hondivole execute desk.table 000471 mandato 2021 12 1 2021-03-03
hondivole execute desk.table 471 reversale 2021 12 1 2021-04-02
hondivole execute desk.table 471 reversale 2021 12 1 2021-04-06
hondivole reverse desk.table 000471 mandato 2021 12 2 2021-03-04

told "An order with a line that was paid can't be changed any more."
hondivole flow desk.table pascoli-changed.xml

told "The bank's cash journal, with a slip and without."
printf 'mandato 2021 12 1 100.00\nmandato 2021 12 2 70.00\n' > journal
hondivole journal desk.table 000471 journal
printf 'mandato 2021 12 1 100.00\n' > journal
hondivole journal desk.table 000471 journal

told "The evening."
hondivole totals desk.table
hondivole list desk.table 000471
hondivole totals desk.table 471 --json
hondivole check desk.table

told "The first school closes 2021. That can be done once no order of the year waits."
hondivole close desk.table 000471 2021
hondivole execute desk.table 000471 mandato 2021 12 2 2021-12-30
hondivole execute desk.table 000471 reversale 2021 12 1 2021-12-30
hondivole totals desk.table 000471
hondivole close desk.table 000471 2021

told "Its orders of 2021 are gone and their slots free, totals speak of what is left, and a late flow of that year is refused. The second is as it was."
hondivole totals desk.table
hondivole list desk.table 000471
hondivole flow desk.table pascoli.xml
hondivole reverse desk.table 000471 mandato 2021 12 1 2021-12-31
sed 's/<esercizio>2021</<esercizio>2022</' pascoli.xml > pascoli-2022.xml
hondivole flow desk.table pascoli-2022.xml

told "Where did these balances come from? Every call of the log, made again, gives the same table."
hondivole replay desk.table.log again.table
cmp desk.table again.table && echo "the same bytes"
