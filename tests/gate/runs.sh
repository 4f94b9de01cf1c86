#!/usr/bin/env bash
# Runs by node threads: how each kind of run ends, what its summary says whatever the order of the turns was, and words that are
# refused. Then ten runs on 1 to 16 nodes: the journal of each, given to `replay`, gives the same console and summary, and its trace
# is legal.
set -u
cd "$(dirname "$0")/../.." || exit 1
. tests/gate/lib/checks.sh

./safetynet --build || { echo "the program was not built" >&2; exit 1; }

# Runs a program, which is to end with this status; its report is to have a line that begins with each of these.
ends() { # status, beginnings of lines, words
  local want=$1 lines=$2 status line lacking=0
  shift 2
  ./safetynet run "$@" >"$work/console" 2>"$work/report"
  status=$?
  while IFS= read -r line; do
    grep -qE -- "^$line( |\$)" "$work/report" || { echo "run $*: no line '$line'" >&2; lacking=1; }
  done <<<"$lines"
  if [ "$status" -eq "$want" ] && [ "$lacking" -eq 0 ]; then
    passed=$((passed + 1))
  else
    echo "run $*: status $status, or a line is lacking" >&2
    failed=$((failed + 1))
  fi
}

# The journal that the last run reported, as a script, gives the same console and summary.
replayed() { # words before the script
  cp "$work/report" "$work/journal"
  ./safetynet replay "$@" "$work/journal" >"$work/again" 2>"$work/report"
  if cmp -s "$work/console" "$work/again" && diff <(grep '^# ' "$work/journal" | grep -vE '^# (worker |why: |safetynet: )' | sed 's/^# //') <(sed -n '/^events /,$p' "$work/report"); then
    passed=$((passed + 1))
  else
    echo "the journal of $*, replayed, has another console or summary" >&2
    failed=$((failed + 1))
  fi
}

# Words that are no run's: nothing is written but why, and the word of the status.
refused() { # words
  ./safetynet run "$@" >"$work/console" 2>"$work/report"
  local status=$?
  if [ "$status" -eq 1 ] && [ ! -s "$work/console" ] && diff <(printf '%s\n' '# why' '# safetynet: usage') <(sed 's/^# why: .*/# why/' "$work/report"); then
    passed=$((passed + 1))
  else
    echo "run $*: status $status, or something else was written" >&2
    failed=$((failed + 1))
  fi
}

count=examples/shared/count.hex mailbox=examples/asm/mailbox.hex
echo 00000000 >"$work/trap.hex"
echo 0000006f >"$work/spin.hex"

# Four cores add 1 to a word and exit, while messages are lost.
ends 0 '# committed 20
# released 0
# watch 80001000 00000004
# core 0 80000010 exited 0
# core 1 80000010 exited 1
# core 2 80000010 exited 2
# core 3 80000010 exited 3' --nodes 4 --watch 80001000 --lose-every 60 --seed 7 --journal "$count"
replayed --nodes 4 --watch 80001000 "$count"

# One node hands letters to the other while every thirtieth message is lost. How many come out before the budget is spent depends on whose
# turn it was; but they come out once each and in order, whatever the recoveries undo.
hands_over=(--nodes 2 --interval 10 --wait 100 --lose-every 30 --budget 100000 --journal "$mailbox")
./safetynet run "${hands_over[@]}" >"$work/console" 2>"$work/report"
status=$? letters=$(cat "$work/console")
if { [ "$status" -eq 0 ] && [ "$letters" = ABCDEFGHIJ ]; } || { [ "$status" -eq 6 ] && [[ ABCDEFGHIJ == "$letters"* ]]; }; then
  passed=$((passed + 1))
else
  echo "run ${hands_over[*]}: status $status, and the letters are $(head -c 100 "$work/console")" >&2
  failed=$((failed + 1))
fi
replayed --nodes 2 "$mailbox"

ends 10 'committed 1
core 0 80000000 trapped illegal
# safetynet: trapped 0 illegal' --nodes 1 "$work/trap.hex"
ends 6 'events 50
# safetynet: budget' --nodes 1 --budget 50 "$work/spin.hex"
# The kill, three steps of each node, one hop into the dead switch, and the recovery.
ends 8 'events 9
point 0
committed 0
# safetynet: cutoff 0 1' --nodes 2 --kill a0@0 "$count"
# Every second event is a recovery.
ends 6 'events 1000
point 0
committed 0
released 0
probe 0 9 500' --nodes 4 --wait 1 --budget 1000 "$count"
ends 6 '# events 1000
# committed 0
# released 0
# probe 0 9 500' --nodes 2 --wait 1 --budget 1000 --journal "$mailbox"
replayed --nodes 2 "$mailbox"
# No input comes to a run, so a core that wants a byte waits until the budget is spent.
ends 6 'events 2000
released 0' --nodes 1 --budget 2000 examples/shared/echo.hex

# Where there is no room for a thread, its work is done without it: with less and less room a run ends as ever, or wants memory.
for ((room = 200000; room >= 40000; room -= 4000)); do
  (ulimit -v "$room" && timeout 60 ./safetynet run --nodes 4 "$count" >"$work/console" 2>"$work/report")
  status=$?
  if [ "$status" -eq 0 ] || { [ "$status" -eq 7 ] && diff <(echo "# safetynet: memory") <(grep -v '^# why: ' "$work/report"); }; then
    passed=$((passed + 1))
  else
    echo "run in $room KiB: status $status" >&2
    failed=$((failed + 1))
  fi
done

refused --nodes 4 --kill a0@0 --kill b0@0 examples/first/a.hex
refused --nodes 2 --kill a2@0 "$count"
refused --nodes 2 --kill c0@0 "$count"
refused --nodes 2 --kill a0@1000001 "$count"
refused --nodes 2 --kill a00@0 "$count"
refused --nodes 2 --kill a0 "$count"
refused --trace --journal "$count"
refused --interval 0 "$count"
refused --interval 1000001 "$count"
refused --wait 0 "$count"
refused --budget 0 "$count"
refused --budget 1000001 "$count"
refused --lose-every 1000001 "$count"
refused --seed 18446744073709551616 "$count"
refused --seed -1 "$count"
refused --journal=x "$count"
refused "$count" "$count"

is_so "journals of ten runs replay to what the runs said" tests/compare_runs.py ./safetynet 10 "gate"

told runs
