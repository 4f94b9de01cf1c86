#!/usr/bin/env bash
# Inputs as large as they may be and one past it, bytes of no form, and outputs that can't be written.
set -u
cd "$(dirname "$0")/../.." || exit 1
. tests/gate/lib/checks.sh

./safetynet --build || { echo "the program was not built" >&2; exit 1; }

first=examples/first/a.hex count=examples/shared/count.hex

# So many of one byte.
bytes() { # how many, the byte
  head -c "$1" /dev/zero | tr '\0' "$2"
}

# Runs the program, which is to end with this status, its report ending with this line. The console and the report stand in the
# folder then.
ends() { # status, last line of the report, words
  local want=$1 line=$2 status
  shift 2
  ./safetynet "$@" >"$work/console" 2>"$work/report"
  status=$?
  if [ "$status" -eq "$want" ] && [ "$(tail -n 1 "$work/report")" = "$line" ]; then
    passed=$((passed + 1))
  else
    echo "$*: status $status, or the report ends with '$(tail -n 1 "$work/report" | head -c 100)'" >&2
    failed=$((failed + 1))
  fi
}

# Runs it with words that are refused: nothing is written but the line that says why and the line that says so.
refused() { # status, word, words
  ends "$1" "# safetynet: $2" "${@:3}"
  if [ -s "$work/console" ] || [ "$(wc -l <"$work/report")" -ne 2 ] || [ "$(grep -c '^# why: ' "$work/report")" -ne 1 ]; then
    echo "${*:3}: something was written" >&2
    failed=$((failed + 1))
  fi
}

# What the last run reported has so many lines like this one.
has() { # how many, pattern
  local found
  found=$(grep -cE -- "$2" "$work/report")
  if [ "$found" -eq "$1" ]; then
    passed=$((passed + 1))
  else
    echo "the report has $found lines '$2' and not $1" >&2
    failed=$((failed + 1))
  fi
}

# Numbers of a million digits, and of as many as a word may have.
digits=$(bytes 100000 7)
{ printf '0 '; bytes 1000000 7; echo ' 0'; } >"$work/seen"
{ bytes 1000000 7; echo ' 00000000 0'; } >"$work/core"
{ printf 'addi a0, a0, '; bytes 1000000 7; echo; } >"$work/addi"
{ bytes 1000000 a; echo ':'; } >"$work/label"
bytes 1000000 7 >"$work/words"
refused 4 'script badline' check --nodes 1 "$first" "$work/seen"
refused 4 'script badline' check --nodes 1 "$first" "$work/core"
refused 13 'asm badline' asm "$work/addi"
ends 0 '' asm "$work/label"
refused 3 'program badhexline' dis "$work/words"
refused 1 usage demo "$digits"
refused 1 usage replay --nodes "$digits" "$first" examples/first/a.script
refused 1 usage run "--seed=$digits" "$first"

# Lines that lack all but the first half of their end.
printf '\r\r\r' >"$work/returns"
refused 13 'asm badline' asm "$work/returns"
refused 3 'program badhexline' dis "$work/returns"

# As many events and records as there may be.
yes validate | head -n 1000000 >"$work/script"
ends 0 'probe 0 9 0' replay --nodes 1 "$first" "$work/script"
has 1 '^events 1000000$'
echo 0000006f >"$work/spin"
yes '0 00000000 0' | head -n 1000000 >"$work/trace"
ends 0 'legal 1000000' check --nodes 1 "$work/spin" "$work/trace"
ends 9 '# safetynet: refused 6' check --nodes 2 "$count" "$work/trace"
yes '0 r 80000000 4 00000000' | head -n 1000000 >"$work/accesses"
ends 0 'legal 1000000' judge "$work/accesses"
echo '0 r 80000000 4 00000000' >>"$work/accesses"
refused 4 'script toomany' judge "$work/accesses"
# As many bytes given and records as a save file may have, and one more of either.
saved() { # how many bytes given, how many records
  printf 'safetynet-save 1\nconfig 1 16 4 256\nmarks 1 1 3000000000\n'
  yes 'given 0 41' | head -n "$1"
  yes 'rec 0 00000000 0' | head -n "$2"
  echo end
}
saved 1000000 1000000 >"$work/save"
ends 0 'probe 0 9 0' resume "$work/spin" "$work/save" /dev/null
has 1 '^committed 1000000$'
saved 1000001 0 >"$work/save"
refused 12 'save outofrange' resume "$work/spin" "$work/save" /dev/null
saved 0 1000001 >"$work/save"
refused 12 'save outofrange' resume "$work/spin" "$work/save" /dev/null
# As many turns as a run may have, with a watcher beside them.
ends 6 '# safetynet: budget' monitor --nodes 1 "$work/spin"
has 1 '^events 1000000$'

# The watcher looks while there are turns: it sees a cut before the last one too, which is shown only until the next one is published. In these
# turns thousands are, but when the watcher's thread has a processor is the system's. So a run in which it saw the last cut alone is done again, ten
# runs in all; if none of them has another, the case has failed, as it has at once where what was seen doesn't grow up to the summary's
# point. Each run ends by its budget, whether the watcher looks or not.
looks_beside() { # words
  local run status
  for ((run = 1; run <= 10; run++)); do
    ./safetynet "$@" >"$work/console" 2>"$work/report"
    status=$?
    if [ "$status" -ne 6 ] || ! awk '
      $1 == "seen" { if ($2 <= point || $3 < committed) exit 1; point = $2; committed = $3 }
      $1 == "point" && $2 != point || $1 == "committed" && $2 != committed { exit 1 }' "$work/report"; then
      echo "$*: status $status, or what was seen doesn't grow up to the summary's point" >&2
      failed=$((failed + 1))
      return
    fi
    if [ "$(grep -c '^seen ' "$work/report")" -gt 1 ]; then
      passed=$((passed + 1))
      return
    fi
  done
  echo "$*: in each of ten runs the watcher saw the last cut alone" >&2
  failed=$((failed + 1))
}
looks_beside monitor --nodes 1 "$work/spin"

# Files at their limits, and the words of memory.
bytes 33554432 '#' >"$work/script"
ends 0 'probe 0 9 0' replay --nodes 1 "$first" "$work/script"
ends 0 'legal 0' check --nodes 1 "$first" "$work/script"
bytes 67108864 '#' >"$work/accesses"
ends 0 'legal 0' judge "$work/accesses"
printf '#' >>"$work/accesses"
refused 4 'script toolong' judge "$work/accesses"
rm "$work/accesses"
bytes 67108864 '#' >"$work/save"
refused 12 'save badline' resume "$first" "$work/save" /dev/null
printf '#' >>"$work/save"
refused 12 'save toolong' resume "$first" "$work/save" /dev/null
rm "$work/save"
{ cat "$first"; bytes 16777216 '#'; } | head -c 16777216 >"$work/program"
ends 0 'probe 0 9 0' replay --nodes 1 "$work/program" examples/first/a.script
bytes 16777216 '#' >"$work/text"
ends 0 '' asm "$work/text"
printf '#' >>"$work/text"
refused 13 'asm toolong' asm "$work/text"
yes ecall | head -n 1048576 >"$work/text"
ends 0 '' asm "$work/text"
cp "$work/console" "$work/program"
ends 0 '' dis "$work/program"
diff <(tail -n +2 "$work/console") "$work/text" >/dev/null || { echo "the words of memory have another listing" >&2; failed=$((failed + 1)); }
echo ecall >>"$work/text"
refused 13 'asm toomanywords' asm "$work/text"
echo 00000073 >>"$work/program"
refused 3 'program toomanywords' dis "$work/program"

# Files without an end, and names of no file.
refused 3 'program toolong' dis /dev/zero
refused 4 'script toolong' replay --nodes 1 "$first" /dev/zero
refused 4 'script toolong' check --nodes 1 "$first" /dev/zero
refused 12 'save toolong' resume "$first" /dev/zero /dev/null
refused 4 'script toolong' judge /dev/zero
refused 13 'asm toolong' asm /dev/zero
refused 2 store dis "$work"
refused 2 store asm ''

# The network is filled to its 1,024 messages, emptied one by one, filled again and emptied by a recovery.
reports() {
  yes 'report 0' | head -n 1025
}
{ echo 'edge 0'; reports; seq -f 'deliver %.0f' 1024; reports; echo recover; echo 'report 0'; } >"$work/script"
ends 0 'probe 0 9 1' replay --nodes 1 "$first" "$work/script"
has 2049 ': reported [01]$'
has 2 'report 0: netfull$'
has 1024 '^[0-9]* deliver [0-9]*: delivered$'
has 1 ': recovered 0 undone 0 dropped 1024$'
has 1 '^  msg 2049 ready '

# Every second event is a recovery: nothing is committed, and each step is undone.
for ((i = 0; i < 500; i++)); do printf 'step %d\nrecover\n' $((i % 2)); done >"$work/script"
ends 0 'probe 0 9 500' replay --nodes 2 "$count" "$work/script"
has 500 ': recovered 0 undone 0 dropped 0$'
has 1 '^committed 0$'

# A console or a report that takes nothing.
broken() { # console, report, words
  local status
  ./safetynet "${@:3}" >"$1" 2>"$2"
  status=$?
  if [ "$status" -eq 5 ]; then
    passed=$((passed + 1))
  else
    echo "${*:3}, to $1 and $2: status $status" >&2
    failed=$((failed + 1))
  fi
}
printf '0 00000000 0\n' >"$work/trace"
replayed=(replay --nodes 1 "$first" examples/first/a.script)
broken /dev/full "$work/report" "${replayed[@]}"
has 1 '^# safetynet: sink$'
broken /dev/full "$work/report" run --nodes 1 "$first"
broken /dev/full "$work/report" monitor --nodes 1 "$first"
broken /dev/full "$work/report" asm examples/asm/counter.s
broken /dev/full "$work/report" dis "$first"
broken "$work/console" /dev/full "${replayed[@]}"
broken "$work/console" /dev/full replay --trace "${replayed[@]:1}"
broken "$work/console" /dev/full run --nodes 1 "$first"
broken "$work/console" /dev/full monitor --nodes 1 "$first"
broken "$work/console" /dev/full run --nodes 1 --trace "$first"
broken "$work/console" /dev/full run --nodes 1 --journal "$first"
broken "$work/console" /dev/full check --nodes 1 "$first" "$work/trace"
broken "$work/console" /dev/full judge examples/judge/message_passing.accesses
broken /dev/full "$work/report" run --order drawn --nodes 4 examples/order/turns.hex
broken "$work/console" /dev/full run --order drawn --nodes 4 examples/order/turns.hex
broken "$work/console" /dev/full demo 100

told limits
