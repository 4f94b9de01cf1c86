#!/usr/bin/env bash
# Saves and resumes: two worked runs byte for byte, the example of docs/FORMATS.md, which has each kind of line, the runs of examples/save in one piece,
# which file decides, outputs that fail, files that are spoiled in one place or two or stand at their bounds (tests/spoiled_saves.py), and random runs cut
# at three places (tests/resumed_runs.py). The program is ./safetynet, or what SAFETYNET says.
set -u
cd "$(dirname "$0")/../.." || exit 1
. tests/gate/lib/checks.sh
export SAFETYNET=${SAFETYNET:-$PWD/safetynet} PYTHONDONTWRITEBYTECODE=1
if [ "$SAFETYNET" = "$PWD/safetynet" ]; then
  ./safetynet --build || { echo "the program was not built" >&2; exit 1; }
  SAFETYNET=$PWD/build/safetynet
fi
count=examples/shared/count.hex echoes=examples/shared/echo.hex letters=examples/save/letters.hex

# What a call reports is this text, and the console has these bytes.
reports() { # text, console's bytes, words
  local text=$1 console=$2
  shift 2
  "$SAFETYNET" "$@" >"$work/console" 2>"$work/report" && diff <(printf '%s\n' "$text") "$work/report" && [ "$(cat "$work/console"; echo .)" = "$console." ]
}

# At the point node 1 owns block 64, so its addition is done at once when it goes on.
printf '%s\n' 'step 1' 'step 1' 'step 1' 'hop 1' 'deliver 1' 'edge 1' 'hop 2' 'deliver 2' 'hop 3' 'deliver 3' 'edge 0' 'deliver 3' 'report 0' 'deliver 4' \
  'report 1' 'hop 5' 'deliver 5' validate >"$work/owned.script"
owned='safetynet-save 1
config 2 16 4 256
marks 1 8 18
owner 64 1
rec 1 00000000 0
rec 1 00000000 0
end'
is_so "a block that node 1 owns is saved as its" reports "$owned" '' save --nodes 2 $count "$work/owned.script"
cp "$work/report" "$work/owned.save"
echo 'step 1' >"$work/step.script"
goes_on() {
  "$SAFETYNET" resume $count "$work/owned.save" "$work/step.script" >"$work/console" 2>"$work/report" && [ "$(head -n 1 "$work/report")" = '1 step 1: retired' ]
}
is_so "and it has the block when it goes on" goes_on

# A byte that was read and one that waits; the first was put out, and isn't again.
printf '%s\n' 'input 0 41' 'step 0' 'step 0' 'step 0' 'step 0' 'edge 0' 'report 0' 'deliver 1' validate 'input 0 42' >"$work/read.script"
given='safetynet-save 1
config 1 16 4 256
marks 1 3 10
given 0 41
given 0 42
rec 0 00000000 0
rec 0 00000000 0 41
rec 0 00000000 0
rec 0 00000000 0
end'
is_so "bytes that were given are saved" reports "$given" A save --nodes 1 $echoes "$work/read.script"
cp "$work/report" "$work/read.save"
printf 'step 0\nstep 0\n' >"$work/two.script"
is_so "a byte that was put out isn't put out again" reports "$(printf '%s\n' '1 step 0: retired' '2 step 0: retired' 'events 2' 'point 1' 'committed 4' 'released 1' \
  'core 0 80000010 running x10=00000041 x17=00000001' 'probe 0 0 2'; seq -f 'probe 0 %.0f 0' 1 9)" '' resume $echoes "$work/read.save" "$work/two.script"

# The page of formats: its file is gone on from, and has each kind of line; its refusal is the program's.
python3 - "$work" <<'END'
import sys
from pathlib import Path

lines = Path("docs/FORMATS.md").read_text(encoding="utf-8").split("\n")
first = lines.index("    safetynet-save 1")
last = lines.index("    end", first)
Path(sys.argv[1], "page.save").write_text("".join(line[4:] + "\n" for line in lines[first:last + 1]))
END
kinds=$(cut -d ' ' -f 1 "$work/page.save" | uniq)
is_so "the page's save file has each kind of line" diff <(printf '%s\n' safetynet-save config marks dead owner given rec end) <(echo "$kinds")
from_page() {
  "$SAFETYNET" resume $echoes "$work/page.save" /dev/null >"$work/console" 2>"$work/report" && grep -qx 'committed 3' "$work/report" && [ ! -s "$work/console" ]
}
is_so "a machine goes on from it, by the program that the page names" from_page
printf 'kill b1\nkill b0\n' >"$work/kills.script"
stays_dead() {
  "$SAFETYNET" resume $echoes "$work/page.save" "$work/kills.script" >"$work/console" 2>"$work/report" &&
    diff <(printf '%s\n' '1 kill b1: alreadydead' '2 kill b0: killed') <(head -n 2 "$work/report")
}
is_so "its dead switch is dead there, and no other" stays_dead
refused_as_on_page() {
  sed '5s/.*/rec 0 0000000 0/' examples/save/once.save >"$work/once.save"
  "$SAFETYNET" resume $letters "$work/once.save" /dev/null >"$work/console" 2>"$work/report"
  [ $? -eq 12 ] && [ ! -s "$work/console" ] && diff <(sed -n '/^    # why: once\.save:5:/,+1s/^    //p' docs/FORMATS.md) <(sed "1s|$work/||" "$work/report")
}
is_so "the page's refusal is what the program says" refused_as_on_page

# The examples' runs in one piece: both consoles joined, and the same summary but for the events.
in_one_piece() { # name of the save, of the script from there, and of the whole
  local folder=examples/save
  cmp <({ cat "$folder/$1.script"; echo recover; cat "$folder/$2.script"; } | grep -v '^#') <(grep -v '^#' "$folder/$3.script") || return 1
  "$SAFETYNET" replay --nodes 2 --watch 80001000 $letters "$folder/$3.script" >"$work/console" 2>"$work/report" || return 1
  cmp <(cat "$folder/$1.console" "$folder/$2.console") "$work/console" &&
    diff <(sed '1,/^events /d; /^probe /d' "$folder/$2.report") <(sed '1,/^events /d; /^probe /d' "$work/report")
}
is_so "once and what comes after it are twice" in_one_piece once after_once twice
is_so "twice and what comes after it are thrice" in_one_piece twice after_twice thrice
{ cat examples/save/thrice.script; echo recover; cat examples/save/after_thrice.script; } >"$work/joined.script"
joined_is_saved() {
  "$SAFETYNET" save --nodes 2 $letters "$work/joined.script" >"$work/console" 2>"$work/report" &&
    cmp <(cat examples/save/thrice.console examples/save/after_thrice.console) "$work/console" &&
    [ "$(grep -c '^rec ' "$work/report")" = "$(sed -n 's/^committed //p' examples/save/after_thrice.report)" ]
}
is_so "both scripts with a recovery between are saved as one" joined_is_saved

# The files are looked at in their order, and the first that is refused decides.
printf 'no word\n' >"$work/bad.hex"
ends_with() { # status, its words, the call's words; nothing else is written
  local want=$1 words=$2 status
  shift 2
  "$SAFETYNET" "$@" >"$work/console" 2>"$work/report"
  status=$?
  [ "$status" -eq "$want" ] && [ ! -s "$work/console" ] && [ "$(tail -n 1 "$work/report")" = "# safetynet: $words" ] && [ "$(wc -l <"$work/report")" -eq 2 ]
}
is_so "a program that is refused leaves the save file alone" ends_with 3 'program badhexline' resume "$work/bad.hex" "$work/missing" "$work/missing"
is_so "a save file that isn't there leaves the script alone" ends_with 2 store resume $letters "$work/missing" "$work/bad.hex"
is_so "and so does one that is refused" ends_with 12 'save notlegal' resume $letters examples/save/spoiled.save "$work/missing"
echo 'step 1' >"$work/node.script"
is_so "a script is one for the save file's nodes" ends_with 4 'script outofrange' resume $echoes "$work/read.save" "$work/node.script"
is_so "a script isn't a save file" ends_with 12 'save badline' resume $letters examples/save/once.script examples/save/once.save

# Outputs that take nothing. Where the console breaks, there is no save file.
broken() { # console, report, the call's words
  local status
  "$SAFETYNET" "${@:3}" >"$1" 2>"$2"
  status=$?
  [ "$status" -eq 5 ]
}
saving=(save --nodes 2 "$letters" examples/save/once.script)
resuming=(resume "$letters" examples/save/once.save examples/save/after_once.script)
is_so "a save file that can't be written is told of" broken "$work/console" /dev/full "${saving[@]}"
is_so "a console that takes nothing leaves no save file" broken /dev/full "$work/report" "${saving[@]}"
is_so "but the two lines that say so" diff <(printf '%s\n' '# why: not all of the output could be written' '# safetynet: sink') "$work/report"
is_so "a report that takes nothing ends what goes on" broken "$work/console" /dev/full "${resuming[@]}"
is_so "and so does a console" broken /dev/full "$work/report" "${resuming[@]}"

is_shown() { # what it says, command..
  local what=$1
  shift
  "$@" >"$work/said"
  local status=$?
  cut -c 1-500 "$work/said"
  is_so "$what" [ "$status" -eq 0 ]
}
is_shown "each spoiled file is refused for its cause, and each good one gone on from" python3 tests/spoiled_saves.py "$SAFETYNET"
is_shown "runs that are saved and resumed are runs in one piece" python3 tests/resumed_runs.py "$SAFETYNET" 12 gate

if has shellcheck "looking through this script"; then
  is_so "shellcheck has nothing to say of it" shellcheck -x tests/gate/saves.sh
fi

told saves
