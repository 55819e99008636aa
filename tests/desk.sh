#!/usr/bin/env bash
# What ./desk and ./library do around the proved program. First in a copied tree, where a stand-in for rt proves and fails at will; then,
# unless the word --stub is given, with the program itself. The last line is 'N right', and the exit status 0, where nothing went wrong.
set -u
root=$(cd "$(dirname "$(readlink -f "${BASH_SOURCE[0]}")")/.." && pwd -P)
work=$(mktemp -d) || exit 2
trap 'chmod -R u+w "$work"; rm -rf "$work"' EXIT
chmod 755 "$work"
right=0
wrong=0
limit=60

# is STATUS WHAT COMMAND..: runs it in $work/tree, keeps its output in $work/out and $work/err, and holds its exit status to STATUS.
is() {
  local status=$1 what=$2
  shift 2
  (cd "$at" && timeout "$limit" "$@") > "$work/out" 2> "$work/err"
  local got=$?
  if [ "$got" -eq "$status" ]; then
    right=$((right + 1))
  else
    fault "$what: exit status $got and not $status"
  fi
}
fault() {
  wrong=$((wrong + 1))
  echo "wrong: $1"
  sed 's/^/  out: /' "$work/out"
  sed 's/^/  err: /' "$work/err"
}
# holds WHAT TEST..: the test succeeds.
holds() {
  local what=$1
  shift
  if "$@"; then right=$((right + 1)); else fault "$what"; fi
}
out_is() { [ "$(cat "$work/out")" = "$1" ]; }
err_has() { grep -qF -- "$1" "$work/err"; }
err_lines() { [ "$(wc -l < "$work/err")" -eq "$1" ]; }
calls() { [ "$(wc -l < "$work/calls")" -eq "$1" ]; }
absent() { [ ! -e "$1" ]; }

# ---- a tree with a stand-in for rt: it refuses crates that hold the word BROKEN, and its program prints what the source says
at=$work/tree
mkdir -p "$at/crates/order_desk/src" "$at/crates/hondivole_c/src" "$at/tools" "$work/kit/bin" "$work/kit/on/$(uname -m)/toolchain/bin"
cp "$root/desk" "$root/library" "$root/KIT" "$at/"
cp "$root/tools/proved" "$root/tools/run" "$at/tools/"
printf 'order_desk:\nhondivole_c staticlib:\n' > "$at/crates.txt"
source=$at/crates/order_desk/src/main.rt
echo one > "$source"
echo flow > "$work/flow.xml"
: > "$work/calls"
cat > "$work/kit/bin/rt" << END
#!/bin/sh
if [ "\$1" = doc ]; then
  echo "$work/kit/START-HERE.md"
  exit
fi
echo "\$*" >> "$work/calls"
if grep -rq BROKEN ../*/src; then
  echo "fn order_desk::main: not proved" >&2
  exit 1
fi
mkdir -p out
said=\$(cat ../order_desk/src/main.rt)
name=\$(basename "\$PWD")
case \$1 in
  run) printf '#!/bin/sh\ncat > /dev/null\necho "%s"\n' "\$said" > "out/\$name" && chmod +x "out/\$name" && "./out/\$name" && : > "out/\$name.stamp" ;;
  lib) echo "\$said" > "out/lib\$name.a" ;;
esac
echo "crate \$name: modules loaded=0 checked=1" >&2
echo "logic=proved functions=1" >&2
END
cat > "$work/kit/bin/rattle" << END
#!/bin/sh
for to; do :; done
echo "logic=proved functions=1"
echo "over what rt ci proved" > "\$to"
END
printf '#!/bin/sh\nshift 3\nexec "$@"\n' > "$work/kit/on/$(uname -m)/toolchain/bin/qemu-x86_64"
chmod +x "$work/kit/bin/rt" "$work/kit/bin/rattle" "$work/kit/on/$(uname -m)/toolchain/bin/qemu-x86_64"
export RATTLE_HOME=$work/kit
export PATH=$work/kit/bin:$PATH

is 0 "first use" ./desk ../flow.xml
holds "first use answers" out_is one
holds "first use is said" err_has "first use"
is 0 "second use" ./desk ../flow.xml
holds "second use is silent" err_lines 0
holds "second use proves nothing" calls 1
find "$at/crates" -exec touch {} +
is 0 "time stamps alone" ./desk ../flow.xml
holds "time stamps alone prove nothing" calls 1

echo BROKEN > "$source"
for time in first second; do
  is 1 "a broken proof, $time run" ./desk ../flow.xml
  holds "a broken proof has no answer, $time run" out_is ""
  holds "a broken proof's failing line, $time run" err_has "order_desk::main: not proved"
  holds "a broken proof leaves no program, $time run" absent "$at/crates/order_desk/out/order_desk"
done
echo one > "$source"
is 0 "undoing the edit" ./desk ../flow.xml
holds "undoing the edit answers" out_is one
holds "undoing the edit proves nothing" calls 3
echo two > "$source"
is 0 "another edit" ./desk ../flow.xml
holds "another edit's answer" out_is two
holds "another edit is no first use" calls 4
if err_has "first use"; then fault "a rebuild is called first use"; else right=$((right + 1)); fi

is 0 "library" ./library
holds "library is there" grep -q two "$at/target/staticlib/libhondivole.a"
echo BROKEN > "$source"
is 1 "library of a broken proof" ./library
holds "no library of a broken proof" absent "$at/target/staticlib/libhondivole.a"
echo two > "$source"
before=$(wc -l < "$work/calls")
is 0 "library, the edit undone" ./library
holds "the library is back" grep -q two "$at/target/staticlib/libhondivole.a"
holds "the library is not proved again" calls "$before"
is 2 "library with an argument" ./library now

# What rt ci built and proved is taken for the content that it ran over, and for no other.
echo three > "$source"
printf '#!/bin/sh\ncat > /dev/null\necho three\n' > "$at/crates/order_desk/out/order_desk"
chmod +x "$at/crates/order_desk/out/order_desk"
hash=$(cd "$at" && tools/proved hash)
is 1 "what rt ci built of other content" tools/proved ran 0
holds "other content is said" err_has "the crates were changed while rt ci ran"
is 0 "what rt ci built" tools/proved ran "$hash"
before=$(wc -l < "$work/calls")
is 0 "the program that rt ci built" ./desk ../flow.xml
holds "the program that rt ci built answers" out_is three
is 0 "the library over what rt ci proved" ./library
holds "the library over what rt ci proved is there" grep -q "over what rt ci proved" "$at/target/staticlib/libhondivole.a"
holds "what rt ci proved is not proved again" calls "$before"
echo two > "$source"

is 0 "help" ./desk --help
holds "help says how" grep -q '^usage: ./desk' "$work/out"
for words in "--bogus" "a b" "--explain a b" "--help a" "-"; do
  # shellcheck disable=SC2086
  is 2 "arguments $words" ./desk $words
  holds "one line of usage for $words" err_lines 1
done
is 1 "a file that is not there" ./desk nowhere.xml
holds "its cause" err_has "nowhere.xml: No such file or directory"
is 0 "standard input" bash -c './desk < ../flow.xml'
is 0 "a pipe by its name" bash -c './desk <(cat ../flow.xml)'
is 1 "closed input" bash -c './desk <&-'
holds "closed input is said" err_has "standard input is closed"
is 1 "closed output" bash -c './desk ../flow.xml >&-'
holds "closed output is said" err_has "standard output is closed"

mkdir "$work/elsewhere"
ln -s "$at/desk" "$work/elsewhere/desk"
ln -s desk "$work/elsewhere/again"
at=$work/elsewhere
is 0 "through a symbolic link" ./again ../flow.xml
holds "through a symbolic link it answers" out_is two

at=$work/read-only
mkdir "$at"
cp -R "$work/tree"/{crates,crates.txt,desk,tools,KIT} "$at/"
chmod -R a-w "$at"
as_user=()
[ "$(id -u)" -ne 0 ] || as_user=(setpriv --reuid=65534 --regid=65534 --clear-groups)
is 1 "a read-only checkout" "${as_user[@]}" ./desk ../flow.xml
holds "its cause is said" err_has "cannot write to $at/target, where order_desk is kept once it is proved and built: Permission denied"

# ---- the program itself
unset RATTLE_HOME
PATH=${PATH#"$work/kit/bin:"}
at=$root
if [ "${1:-}" != --stub ]; then
  limit=3600
  is 0 "the programs are proved and built" ./desk examples/run.xml
  is 0 "the programs are proved and built" ./desk --explain examples/run.xml
  limit=60
  for flow in "$root"/examples/*.xml; do
    name=$(basename "$flow" .xml)
    is 0 "examples/$name.xml explained" ./desk --explain "examples/$name.xml"
    holds "examples/$name.xml explained is examples/$name.out" cmp -s "$work/out" "examples/$name.out"
    is 0 "examples/$name.xml" ./desk "examples/$name.xml"
    grep -v '^  ' "$root/examples/$name.out" > "$work/plain"
    holds "examples/$name.xml is examples/$name.out without its sentences" cmp -s "$work/out" "$work/plain"
  done
  is 1 "a folder for a file" ./desk examples
  holds "a folder's cause" err_has "the input cannot be read"
  holds "a folder is no flow" out_is ""
  is 1 "a full device" bash -c './desk examples/run.xml > /dev/full'
  holds "a full device is said" err_has "the output cannot be written"
  # shellcheck disable=SC2016
  is 1 "a reader that went away" bash -c 'trap "" PIPE; ./desk examples/run.xml | sleep 0; exit ${PIPESTATUS[0]}'
fi

[ "$wrong" -eq 0 ] && echo "$right right"
[ "$wrong" -eq 0 ]
