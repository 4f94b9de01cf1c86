#!/usr/bin/env bash
# Makes pages of replays by tools/tour and walks through them in a browser where there is one: what a page shows after each event is the folded
# state of `replay --states`. Then asks for what is refused.
set -u
cd "$(dirname "$0")/../.." || exit 1
. tests/gate/lib/checks.sh
export PYTHONDONTWRITEBYTECODE=1
export SAFETYNET=${SAFETYNET:-$PWD/safetynet}
if [ "$SAFETYNET" = "$PWD/safetynet" ]; then
  ./safetynet --build || { echo "the program was not built" >&2; exit 1; }
fi

# Each stored schedule has a page, and its states stand beside it for the browser.
pages=()
toured() { # a name for it, the words of the replay
  local name=$1
  shift
  tools/tour "$@" >"$work/$name.html" && "$SAFETYNET" replay --states "$@" >/dev/null 2>"$work/$name.states" || return 1
  pages+=("$work/$name.html" "$work/$name.states")
}
for script in examples/{shared,asm,lessons}/*.script; do
  read -r _ _ line <"$script"
  read -ra words <<<"$line"
  last=$((${#words[@]} - 1))
  words=("${words[@]:0:last}" "${script%/*}/${words[last]}" "$script")
  is_so "$script has a page" toured "$(basename "$script" .script)" "${words[@]}"
done
hex=examples/shared/count.hex
script=examples/shared/lost_transfer.script
later=(--nodes 2 "$hex" examples/lessons/lost_later.script)
part() {
  tools/tour --from 25 --to 40 "${later[@]}" >"$work/part.html" && "$SAFETYNET" replay --states --only 25-40 "${later[@]}" >/dev/null 2>"$work/part.states" &&
    pages+=("$work/part.html" "$work/part.states")
}
is_so "some events alone have a page" part
: >"$work/empty.script"
is_so "a script without an event has a page" toured empty --nodes 3 $hex "$work/empty.script"
# Of an open transaction is lost what lets a put go on, and what it gives back; a forward; and an unblock that is sent into a dead switch.
asks() { # a node, which wants to write
  printf 'step %s\n' "$1" "$1" "$1"
}
writes() { # a neighbour of the home, and its request's number
  asks "$1"
  printf '%s %s\n' hop "$2" deliver "$2" hop $(($2 + 1)) deliver $(($2 + 1)) hop $(($2 + 2)) deliver $(($2 + 2)) step "$1"
}
{
  writes 1 1
  printf '%s\n' 'evict 1 64' 'hop 4' 'deliver 4' 'lose 5' recover
  writes 1 6
  printf '%s\n' 'evict 1 64' 'hop 9' 'deliver 9' 'hop 10' 'deliver 10' 'lose 11' recover
  writes 1 12
  asks 2
  printf '%s\n' 'hop 15' 'deliver 15' 'lose 16' recover
  asks 3
  printf '%s\n' 'hop 17' 'hop 17' 'hop 17' 'deliver 17' 'hop 18' 'hop 18' 'hop 18' 'kill a3' 'deliver 18' validate recover
} >"$work/losses.script"
is_so "what is lost of transactions has a page" toured losses --nodes 4 $hex "$work/losses.script"
is_so "the same bytes come a second time" cmp <(tools/tour "${later[@]}") <(tools/tour "${later[@]}")
is_so "a title is escaped" tools/tour "--title=<b>{{data}} & \"c\"</b>" "${later[@]}" >"$work/title.html"
is_so "and stands there as it was given" grep -q '<h1>&lt;b&gt;{{data}} &amp; "c"&lt;/b&gt;</h1>' "$work/title.html"
asks_for_nothing() {
  ! grep -Eo '(src|href)="[^"#][^"]*"|url\([^#)][^)]*\)|@import|https?://[^ "<]*' "$work"/lost_transfer.html | grep -v -e '^href="data:,"$' -e 'http://www.w3.org/2000/svg'
}
is_so "a page names nothing outside itself" asks_for_nothing

# What is refused says so by one line, or by the program's own, and writes nothing.
refuses() { # status, what the last line has, words..
  local status=$1 line=$2 found
  shift 2
  tools/tour "$@" >"$work/out" 2>"$work/err"
  found=$?
  [ "$found" -eq "$status" ] && [ ! -s "$work/out" ] && tail -n 1 "$work/err" | grep -qF -- "$line" && [ "$(wc -l <"$work/err")" -le 3 ]
}
is_so "no file is refused" refuses 2 "0 files are given"
is_so "an unknown option is refused" refuses 2 "--trace is no option (tools/tour --help lists them)" --trace $hex $script
is_so "--from behind --to is refused" refuses 2 "--from 9 --to 3: the first comes after the last" --from 9 --to 3 --nodes 2 $hex $script
is_so "--to behind the end is refused" refuses 2 "--to 16: the replay has 15 events" --to 16 --nodes 2 $hex $script
is_so "a lacking script is refused as by the program" refuses 2 "# safetynet: store" --nodes 2 $hex "$work/lacking"
is_so "so many nodes are refused as by the program" refuses 1 "# safetynet: usage" --nodes 17 $hex $script
is_so "a script of another form is refused as by the program" refuses 4 "# safetynet: script badline" --nodes 2 $hex $hex
is_so "a program that isn't there is named" refuses 1 "$work/lacking can't be asked" --safetynet "$work/lacking" --nodes 2 $hex $script
yes 'report 0' | head -n 5001 >"$work/many.script"
is_so "more events than a page has are refused, with what to do" refuses 2 "choose some by --from A --to B, as --from 1 --to 5000" --nodes 2 $hex "$work/many.script"
# A program that says something else with --states. What its text has for $2 and $@ is its own.
# shellcheck disable=SC2016
other() { # what it says
  printf '#!/bin/sh\ncase "$2" in --states) printf '"'%%s\\\\n'"' %s >&2 ;; *) exec "%s" "$@" ;; esac\n' "$1" "$(realpath "$SAFETYNET")" >"$work/other"
  chmod +x "$work/other"
}
other "'{}'"
is_so "states of another form are refused" refuses 1 "the states don't begin with a line of the form" --safetynet "$work/other" --nodes 2 $hex $script
other "'{\"form\":\"safetynet states 1\"' '{}'"
is_so "and so is what is no JSON" refuses 1 "line 1 of the states is no JSON object" --safetynet "$work/other" --nodes 2 $hex $script
into_full() {
  tools/tour --nodes 2 $hex $script >/dev/full 2>"$work/err"
  [ $? -eq 1 ] && [ "$(cat "$work/err")" = "tour: the page couldn't be written: No space left on device" ]
}
is_so "a full disk is told" into_full
is_so "--help tells the options" eval "tools/tour --help | grep -q -- '^  --hops '"

# Where the tool is unpacked beside bin/safetynet, it asks that.
mkdir -p "$work/kit/bin" "$work/kit/tools" && cp -R tools/{diagram,diagrams,tour,tours} "$work/kit/tools" && ln -s "$(realpath "$SAFETYNET")" "$work/kit/bin/safetynet"
from_kit() {
  env -u SAFETYNET "$work/kit/tools/tour" --nodes 2 $hex $script | cmp - <(tools/tour --nodes 2 $hex $script)
}
is_so "beside bin/safetynet the page is the same" from_kit

# In a browser.
if [ -x /usr/bin/python3 ]; then
  /usr/bin/python3 tests/tour_browser.py "${pages[@]}"
  status=$?
  if [ "$status" -eq 77 ]; then
    echo "skipped, since chromium, chromium-driver or python3-selenium isn't there: walking through pages in a browser"
  else
    is_so "a browser walks through them, and each state is the folded one" [ "$status" -eq 0 ]
  fi
fi
if has mypy "checking the types of the tour's tools"; then
  is_so "mypy has nothing to say of them" mypy_says --ignore-missing-imports tools/tour tools/tours/*.py
fi
if has shellcheck "looking through this script"; then
  is_so "shellcheck has nothing to say of it" shellcheck -x tests/gate/tour.sh
fi

told tour
