#!/usr/bin/env bash
# Draws replays by tools/diagram and holds each picture against its report; draws docs/pictures anew and compares; asks for what is refused; and
# opens pictures of 2, 4 and 16 nodes in a browser where there is one.
set -u
cd "$(dirname "$0")/../.." || exit 1
. tests/gate/lib/checks.sh
export PYTHONDONTWRITEBYTECODE=1
export SAFETYNET=${SAFETYNET:-$PWD/safetynet}
if [ "$SAFETYNET" = "$PWD/safetynet" ]; then
  ./safetynet --build || { echo "the program was not built" >&2; exit 1; }
fi

# Each stored picture is what the tool draws today, and what it drew a moment ago.
mkdir "$work/once" "$work/twice"
is_so "all pictures are drawn" tools/pictures "$work/once"
is_so "docs/pictures are these (tools/pictures draws them)" diff -r -x "tour_*.png" "$work/once" docs/pictures
(cd / && "$OLDPWD/tools/pictures" "$work/twice") || failed=$((failed + 1))
is_so "the same bytes come a second time, from another folder" diff -r "$work/once" "$work/twice"

# Each replay has a picture with an element for each event and message of its report.
drawn() { # a name for it, from, to, the words of the replay
  local name=$1 span=() range=()
  [ "$2" = 0 ] || { span=("$2" "$3"); range=(--from "$2" --to "$3"); }
  shift 3
  "$SAFETYNET" replay "$@" 2>"$work/$name.report" >/dev/null &&
    tools/diagram ${range[@]+"${range[@]}"} "$@" >"$work/$name.svg" &&
    python3 tests/diagram_elements.py "$work/$name.report" "$work/$name.svg" ${span[@]+"${span[@]}"}
}
for script in examples/{shared,asm,lessons}/*.script; do
  read -r _ _ line <"$script"
  read -ra words <<<"$line"
  last=$((${#words[@]} - 1))
  name=$(basename "$script" .script)
  words=("${words[@]:0:last}" "${script%/*}/${words[last]}" "$script")
  is_so "the picture of $script has all of its report" drawn "$name" 0 0 "${words[@]}"
done
for script in examples/first/*.script; do
  is_so "the picture of $script has all of its report" drawn "first" 0 0 --nodes 1 examples/first/a.hex "$script"
done
later=(--nodes 2 examples/shared/count.hex examples/lessons/lost_later.script)
for span in "1 1" "11 13" "24 25" "25 40" "34 34" "54 54" "1 54"; do
  read -r from to <<<"$span"
  is_so "events $from to $to alone have all of theirs" drawn part "$from" "$to" "${later[@]}"
done
# What a switch took along when it died is in flight as far as the report tells, until a recovery drops fewer.
printf '%s\n' 'step 1' 'step 1' 'step 1' 'hop 1' 'deliver 1' 'report 1' 'kill a0' recover >"$work/taken.script"
is_so "a message that may have gone with a switch is drawn so" drawn taken 0 0 --nodes 4 examples/shared/count.hex "$work/taken.script"
is_so "and is said to be unclear" grep -q 'id="message-2"><title>.*dropped by the recovery of event 8, or lost before' "$work/taken.svg"

# Sixteen nodes: all of them miss, report, and are told of a checkpoint.
sixteen() {
  local node number
  for node in {0..15}; do printf '%s\n' "step $node" "edge $node" "report $node"; done
  for number in {1..16}; do printf "hop $number\n%.0s" {1..6}; echo "deliver $number"; done
  printf '%s\n' validate 'step 3' recover
  for node in {0..15}; do printf '%s\n' "step $node" "step $node"; done
  printf '%s\n' 'kill b5' recover
}
sixteen >"$work/sixteen.script"
is_so "the picture of sixteen nodes has all of its report" drawn sixteen 0 0 --nodes 16 examples/shared/copy.hex "$work/sixteen.script"
yes 'report 0' | head -n 1000 >"$work/many.script"
yes 'step 0' | head -n 1000 >>"$work/many.script"
is_so "two thousand events are drawn" drawn many 0 0 --nodes 2 examples/shared/count.hex "$work/many.script"
: >"$work/empty.script"
is_so "a script without an event is drawn" drawn empty 0 0 --nodes 3 examples/shared/count.hex "$work/empty.script"
is_so "a title is escaped and broken into lines" tools/diagram "--title=<a> & \"b\" $(printf 'wide %.0s' {1..40})" "${later[@]}" >"$work/title.svg"
is_so "and is the picture's" python3 tests/diagram_elements.py "$work/lost_later.report" "$work/title.svg"

# What is refused says so by one line, or by the program's own, and writes nothing.
refuses() { # status, what the last line has, words..
  local status=$1 line=$2 found
  shift 2
  tools/diagram "$@" >"$work/out" 2>"$work/err"
  found=$?
  [ "$found" -eq "$status" ] && [ ! -s "$work/out" ] && tail -n 1 "$work/err" | grep -qF -- "$line" && [ "$(wc -l <"$work/err")" -le 3 ]
}
hex=examples/shared/count.hex
script=examples/shared/lost_transfer.script
is_so "no file is refused" refuses 2 "0 files are given"
is_so "one file is refused" refuses 2 "1 files are given" $hex
is_so "three files are refused" refuses 2 "3 files are given" $hex $script $script
is_so "an unknown option is refused" refuses 2 "--node is no option" --node 2 $hex $script
is_so "--trace is refused, since it has no events" refuses 2 "--trace is no option" --trace $hex $script
is_so "an option without its value is refused" refuses 2 "--nodes needs a value" $hex $script --nodes
is_so "an option that is given twice is refused" refuses 2 "--nodes is given twice" --nodes 2 --nodes=2 $hex $script
is_so "--hops twice is refused" refuses 2 "--hops is given twice" --hops --hops $hex $script
for place in 0 -1 x 1.5 '' ٣ 9999999999; do
  is_so "--from '$place' is refused" refuses 2 "a place is a number from 1" "--from=$place" --nodes 2 $hex $script
done
is_so "--from behind --to is refused" refuses 2 "--from 9 --to 3: the first comes after the last" --from 9 --to 3 --nodes 2 $hex $script
is_so "--to behind the end is refused" refuses 2 "--to 16: the replay has 15 events" --to 16 --nodes 2 $hex $script
is_so "--from of an empty script is refused" refuses 2 "--from 1: the replay has 0 events" --from 1 --nodes 2 $hex "$work/empty.script"
is_so "an empty title is refused" refuses 2 "a title has letters" --title= --nodes 2 $hex $script
is_so "a title with a control character is refused" refuses 2 "no control characters" --title=$'a\x01b' --nodes 2 $hex $script
is_so "a title that is no UTF-8 is refused" refuses 2 "no control characters" --title=$'a\xffb' --nodes 2 $hex $script
echo validate >>"$work/many.script"
is_so "more events than rows are refused, with what to do" refuses 2 "choose some by --from A --to B, as --from 1 --to 2000" --nodes 2 $hex "$work/many.script"
is_so "and some of them are drawn" drawn many 1995 2001 --nodes 2 $hex "$work/many.script"
is_so "a lacking script is refused as by the program" refuses 2 "# safetynet: store" --nodes 2 $hex "$work/lacking"
is_so "so many nodes are refused as by the program" refuses 1 "# safetynet: usage" --nodes 17 $hex $script
is_so "a program of another form is refused as by the program" refuses 3 "# safetynet: program badhexline" --nodes 2 $script $script
is_so "a script of another form is refused as by the program" refuses 4 "# safetynet: script badline" --nodes 2 $hex $hex
is_so "a program that isn't there is named" refuses 1 "$work/lacking can't be asked" --safetynet "$work/lacking" --nodes 2 $hex $script
printf '#!/bin/sh\necho "1 step 0: retired" >&2\necho "  of another form" >&2\n' >"$work/other" && chmod +x "$work/other"
is_so "a report of another form is refused with its line" refuses 1 "line 2 of the report has another form:   of another form" --safetynet="$work/other" $hex $script
printf '#!/bin/sh\necho "1 step 0: retired" >&2\n' >"$work/other"
is_so "a report without its summary is refused" refuses 1 "the report has no summary" --safetynet="$work/other" $hex $script
into_full() {
  tools/diagram --nodes 2 $hex $script >/dev/full 2>"$work/err"
  [ $? -eq 1 ] && [ "$(cat "$work/err")" = "diagram: the picture couldn't be written: No space left on device" ]
}
is_so "a full disk is told" into_full
into_none() {
  ! tools/pictures "$work/lacking" 2>"$work/err" && grep -q "No such file" "$work/err"
}
is_so "pictures into a folder that isn't there are refused" into_none

# Where the tool is unpacked beside bin/safetynet, it asks that.
mkdir -p "$work/kit/bin" "$work/kit/tools" && cp -R tools/diagram tools/diagrams "$work/kit/tools" && ln -s "$(realpath "$SAFETYNET")" "$work/kit/bin/safetynet"
from_kit() {
  env -u SAFETYNET "$work/kit/tools/diagram" --nodes 2 $hex $script | cmp - <(tools/diagram --nodes 2 $hex $script)
}
is_so "beside bin/safetynet the picture is the same" from_kit
is_so "--help tells the options" eval "tools/diagram --help | grep -q -- '^  --hops '"

# In a browser.
if [ -x /usr/bin/python3 ]; then
  /usr/bin/python3 tests/diagram_browser.py "$work"/{lost_later,detour,sixteen,full_log,dead_switch,taken,part,empty,title}.svg docs/pictures/*.svg
  status=$?
  if [ "$status" -eq 77 ]; then
    echo "skipped, since chromium, chromium-driver or python3-selenium isn't there: opening pictures in a browser"
  else
    is_so "a browser shows them, and no two texts share room" [ "$status" -eq 0 ]
  fi
fi
if has mypy "checking the types of the diagram's tools"; then
  is_so "mypy has nothing to say of them" mypy_says --ignore-missing-imports tools/diagram tools/diagrams/*.py
  is_so "nor of what draws" mypy_says --ignore-missing-imports tools/pictures
fi
if has shellcheck "looking through these scripts"; then
  is_so "shellcheck has nothing to say of the scripts" shellcheck -x tests/gate/{diagram,lessons}.sh
fi

told diagram
