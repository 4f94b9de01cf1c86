#!/usr/bin/env bash
# Drives machines by lines: the answers that a reader of docs/FORMATS.md expects, a shell that waits for each answer, and scripts of every kind beside
# `replay` (tests/compare_drive.py). The program is ./safetynet, or what SAFETYNET says.
set -u
cd "$(dirname "$0")/../.." || exit 1
. tests/gate/lib/checks.sh
export SAFETYNET=${SAFETYNET:-$PWD/safetynet} PYTHONDONTWRITEBYTECODE=1
if [ "$SAFETYNET" = "$PWD/safetynet" ]; then
  ./safetynet --build || { echo "the program was not built" >&2; exit 1; }
  SAFETYNET=$PWD/build/safetynet
fi
count=examples/shared/count.hex

# Each line has its answer, in order; an empty line and a comment have none, and the summary comes last.
answers() {
  printf '%s\n' 'step 0' 'foresee step 0' 'stepp 0' 'step 7' '# a comment' '' 'foresee step 7' 'validate' | "$SAFETYNET" drive --nodes 2 $count >"$work/console" 2>"$work/report" &&
    diff <(printf '%s\n' '1 step 0: retired' '2 step 0: retired' 'badline 3' 'outofrange 4' 'outofrange 7' '2 validate: notready 0' 'events 2') <(head -n 7 "$work/report")
}
is_so "lines are answered as the page of formats says" answers
printf 'step 0\nvalidate\n' >"$work/script"
ends_alike() {
  "$SAFETYNET" replay --nodes 2 $count "$work/script" 2>"$work/replayed" && diff <(sed -n '/^events /,$p' "$work/replayed") <(sed -n '/^events /,$p' "$work/report")
}
is_so "the end is that of a replay" ends_alike

session() {
  printf '%s\n' 'step 0' 'stepp 0' validate 'core 0' flights 'due 0 7' 'back 1' mark | "$SAFETYNET" drive --nodes 1 examples/first/a.hex 2>"$work/report" >"$work/console"
  diff <(sed -n '/^So the program of examples\/first on one node/,/^\*\*What a watcher saw/s/^    //p' docs/FORMATS.md) <(head -n 8 "$work/report")
}
is_so "the session on that page is so" session

# With --states each event has its line, between the first line and the last.
states() {
  "$SAFETYNET" replay --nodes 2 --states $count "$work/script" 2>"$work/replayed" &&
    "$SAFETYNET" drive --nodes 2 --states $count <"$work/script" 2>&1 >/dev/null | cmp - "$work/replayed"
}
is_so "with --states the lines are those of a replay that shows states" states

# A shell that asks for a line only once it has read the answer to the one before it.
in_turns() {
  local line answer='' into from
  # its report is read, and not its console
  # shellcheck disable=SC2069
  coproc DRIVE { exec "$SAFETYNET" drive --nodes 2 $count 2>&1 >/dev/null; }
  into=${DRIVE[1]} from=${DRIVE[0]}
  for line in 'step 0' 'step 1' 'foresee step 1' 'step 1' 'edge 0' 'kill b1'; do
    echo "$line" >&"$into"
    read -r -t 60 answer <&"$from" || return 1
    echo "$answer"
  done >"$work/turns"
  exec {into}>&-
  cat <&"$from" >"$work/rest"
  diff <(printf '%s\n' '1 step 0: retired' '2 step 1: retired' '3 step 1: retired' '3 step 1: retired' '4 edge 0: edged 1' '5 kill b1: killed') "$work/turns" &&
    [ "$(head -n 1 "$work/rest")" = "events 5" ]
}
is_so "each answer comes before the next line is asked for" in_turns

# The events of a run are driven while they come, and nothing is kept of what was read.
piped() {
  "$SAFETYNET" run --nodes 4 --order drawn --budget 20000 --lose-every 97 --journal $count >/dev/null 2>"$work/journal"
  "$SAFETYNET" replay --nodes 4 $count "$work/journal" >"$work/console" 2>"$work/report" &&
    "$SAFETYNET" drive --nodes 4 $count <"$work/journal" 2>&1 >"$work/again" | cmp - "$work/report" && cmp "$work/console" "$work/again"
}
is_so "a journal is driven as it is replayed" piped

compared() {
  python3 tests/compare_drive.py "$SAFETYNET" 30 gate >"$work/said"
  local status=$?
  cut -c 1-2000 "$work/said"
  [ "$status" -eq 0 ]
}
is_so "scripts, lines strewn in, and each kind of end are as replay has them" compared

if has shellcheck "looking through this script"; then
  is_so "shellcheck has nothing to say of it" shellcheck -x tests/gate/drive.sh
fi

told drive
