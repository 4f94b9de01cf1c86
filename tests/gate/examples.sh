#!/usr/bin/env bash
# Runs each example by the README's first command and compares console, report and status with the files beside it: the first
# program once as hexadecimal words and once as an ELF file, and those of examples/shared, examples/asm, examples/lessons,
# examples/traces, examples/roll and examples/save by the words that their scripts, traces and control files begin with. Of runs that are watched the
# last cut that was seen is compared. What a replay shows as its trace is to be legal, and a file may be empty. Then runs programs, scripts and words that are refused, and compares the
# status and its word.
set -u
cd "$(dirname "$0")/../.." || exit 1
. tests/gate/lib/checks.sh

./safetynet --build || { echo "the program was not built" >&2; exit 1; }

# Runs an example, whose report stands beside its script or trace, and its console too where it has one. A trace that is refused
# has the status 9.
shows() { # script or trace, the command's words before it
  local file=$1 name=${1%.*} console=${1%.*}.console want=0 status
  shift
  [ -e "$console" ] || console=/dev/null
  ! grep -q '^refused ' "$name.report" || want=9
  ./safetynet "$@" "$file" >"$work/console" 2>"$work/report"
  status=$?
  if [ "$status" -eq "$want" ] && cmp -s "$work/console" "$console" && diff "$name.report" "$work/report"; then
    passed=$((passed + 1))
  else
    echo "example $name by $*: status $status, or another console or report" >&2
    failed=$((failed + 1))
  fi
}

for script in examples/first/*.script; do
  for program in examples/first/a.hex examples/first/a.elf; do
    shows "$script" replay --nodes 1 "$program"
  done
done
for file in examples/{shared,asm,lessons}/*.script examples/traces/*.trace; do
  read -r _ line <"$file"
  read -ra words <<<"$line"
  last=$((${#words[@]} - 1))
  shows "$file" "${words[@]:0:last}" "${file%/*}/${words[last]}"
done

# A control file names the program and the script before it.
for control in examples/roll/*.control; do
  read -r _ line <"$control"
  read -ra words <<<"$line"
  last=$((${#words[@]} - 1))
  shows "$control" "${words[@]:0:last-1}" "${control%/*}/${words[last-1]}" "${control%/*}/${words[last]}"
done

# A script in examples/save begins with the words of its save, whose report is the save file, or of its resume.
for script in examples/save/*.script; do
  read -r _ line <"$script"
  read -ra words <<<"$line"
  last=$((${#words[@]} - 1))
  if [ "${words[0]}" = save ]; then
    cp "${script%.script}.save" "$work/saved.report"
    cp "${script%.script}.console" "$work/saved.console"
    cp "$script" "$work/saved.script"
    shows "$work/saved.script" "${words[@]:0:last-1}" "examples/save/${words[last-1]}"
  else
    shows "$script" "${words[@]:0:last-2}" "examples/save/${words[last-2]}" "examples/save/${words[last-1]}"
  fi
done

# A run that is watched: its report begins with what was seen. Which cuts those are before the last is left to the threads, but their points
# grow, from above 0.
watched() { # name of the example, status, the command's words
  local example=examples/monitor/$1 want=$2 console=examples/monitor/$1.console status
  shift 2
  [ -e "$console" ] || console=/dev/null
  ./safetynet monitor "$@" >"$work/console" 2>"$work/report"
  status=$?
  { grep '^seen ' "$work/report" | tail -n 1; grep -v '^seen ' "$work/report"; } >"$work/text"
  if [ "$status" -eq "$want" ] && cmp -s "$work/console" "$console" && diff "$example.report" "$work/text" &&
    awk '$1 == "seen" { if ($2 <= last) exit 1; last = $2 }' "$work/report"; then
    passed=$((passed + 1))
  else
    echo "example $example: status $status, or another console or report, or points that don't grow" >&2
    failed=$((failed + 1))
  fi
}
watched output 0 --nodes 1 examples/first/a.hex
watched additions 0 --nodes 4 --watch 80001000 examples/shared/count.hex
watched losses 0 --nodes 4 --watch 80001000 --lose-every 13 --wait 400 examples/shared/count.hex
watched budget 6 --nodes 1 --budget 50 examples/monitor/round.hex

# Accesses that are judged by themselves: the report is the verdict, and then why and the status, where there is one.
for accesses in examples/judge/*.accesses; do
  ./safetynet judge "$accesses" >"$work/console" 2>"$work/report"
  status=$?
  grep -v '^# ' "$work/report" >"$work/text"
  want=0
  grep -q '^refused ' "${accesses%.accesses}.report" && want=9
  if [ "$status" -eq "$want" ] && [ ! -s "$work/console" ] && diff "${accesses%.accesses}.report" "$work/text"; then
    passed=$((passed + 1))
  else
    echo "example $accesses: status $status, or another verdict" >&2
    failed=$((failed + 1))
  fi
done

# A run in an order gives the same bytes each time, and its journal replays to the same output.
ordered() { # order
  local order=$1 sizes=(--nodes 4) example=examples/order/$1 again
  for again in 1 2; do
    ./safetynet run --order "$order" "${sizes[@]}" examples/order/turns.hex >"$work/console.$again" 2>"$work/report.$again" || return
    ./safetynet run --order "$order" "${sizes[@]}" --journal examples/order/turns.hex >"$work/played.$again" 2>"$work/journal.$again" || return
    cmp "$work/console.$again" "$work/played.$again" || return
  done
  cmp "$work/console.1" "$work/console.2" && cmp "$work/report.1" "$work/report.2" && cmp "$work/journal.1" "$work/journal.2" || return
  ./safetynet replay "${sizes[@]}" examples/order/turns.hex "$work/journal.1" 2>/dev/null | cmp - "$work/console.1" || return
  # what is stored is what the program gives
  [ ! -e "$example.console" ] || { cmp "$example.console" "$work/console.1" && cmp "$example.report" "$work/report.1"; }
}
for order in round drawn; do
  if ordered "$order"; then
    passed=$((passed + 1))
  else
    echo "a run with --order $order isn't the same each time, or isn't the stored one" >&2
    failed=$((failed + 1))
  fi
done

# What a replay shows as its trace is judged legal, with as many records as its summary says.
for script in examples/{shared,asm,lessons}/*.script; do
  read -r _ line <"$script"
  read -ra words <<<"$line"
  last=$((${#words[@]} - 1)) nodes=()
  [[ "$line" =~ (--nodes [0-9]+) ]] && read -ra nodes <<<"${BASH_REMATCH[1]}"
  program=${script%/*}/${words[last]}
  ./safetynet "${words[@]:0:last}" --trace "$program" "$script" >/dev/null 2>"$work/trace"
  ./safetynet check ${nodes[@]+"${nodes[@]}"} "$program" "$work/trace" 2>"$work/report"
  status=$?
  if [ "$status" -eq 0 ] && diff <(sed -n 's/^# committed/legal/p' "$work/trace") "$work/report"; then
    passed=$((passed + 1))
  else
    echo "the trace of $script: status $status, or another verdict" >&2
    failed=$((failed + 1))
  fi
done

# The records of three of these traces are those of examples/traces, or all but the last of them.
records_are() { # script of examples/shared, trace of examples/traces, how many of its records, the command's words
  local script=examples/shared/$1.script trace=examples/traces/$2.trace many=$3
  shift 3
  ./safetynet replay --trace "$@" "$script" 2>"$work/trace" >/dev/null
  if diff <(grep -v '^#' "$work/trace") <(grep -v '^#' "$trace" | head -n "$many"); then
    passed=$((passed + 1))
  else
    echo "the trace of $script isn't the first $many records of $trace" >&2
    failed=$((failed + 1))
  fi
}
records_are shared_word additions 6 --nodes 2 examples/shared/count.hex
records_are late_addition additions 5 --nodes 2 examples/shared/count.hex
records_are input input 4 --nodes 1 examples/shared/echo.hex

# A file of no bytes is a script without an event, and a trace without a record.
: >"$work/empty"
puts_report() { # the command's words; the report is the standard input
  ./safetynet "$@" >"$work/console" 2>"$work/report"
  local status=$?
  if [ "$status" -eq 0 ] && [ ! -s "$work/console" ] && diff - <(grep -v '^probe ' "$work/report"); then
    passed=$((passed + 1))
  else
    echo "$*: status $status, or another console or report" >&2
    failed=$((failed + 1))
  fi
}
puts_report replay --nodes 1 examples/first/a.hex "$work/empty" <<'END'
events 0
point 0
committed 0
released 0
core 0 80000000 running
END
puts_report check --nodes 2 examples/shared/count.hex "$work/empty" <<'END'
legal 0
END
# The first event of a demonstration is a step of node 0, which nothing has validated yet.
puts_report demo 1 <<'END'
events 1
point 0
committed 0
released 0
core 0 80000000 running
core 1 80000000 running x10=00000001
core 2 80000000 running x10=00000002
core 3 80000000 running x10=00000003
END

# A demonstration has as many events as are asked for, and is the same each time.
./safetynet demo 100000 >"$work/console" 2>"$work/report" && ./safetynet demo 100000 >"$work/text" 2>"$work/trace"
status=$?
if [ "$status" -eq 0 ] && cmp -s "$work/console" "$work/text" && cmp -s "$work/report" "$work/trace" && [ "$(head -n 1 "$work/report")" = "events 100000" ]; then
  passed=$((passed + 1))
else
  echo "a demonstration of 100000 events: status $status, or another report the second time" >&2
  failed=$((failed + 1))
fi

# The report is a line that says why, and the line that names the status.
says_why() { # status's words
  diff <(printf '%s\n' '# why' "# safetynet: $1") <(sed 's/^# why: .*/# why/' "$work/report")
}
# Replays these files, or judges them, which are to be refused with this status and this word.
refused() { # status, word, program, script, nodes, command
  ./safetynet "${6:-replay}" --nodes "${5:-1}" "$3" "$4" >"$work/console" 2>"$work/report"
  local status=$?
  if [ "$status" -eq "$1" ] && [ ! -s "$work/console" ] && says_why "$2"; then
    passed=$((passed + 1))
  else
    echo "what is refused as $2: status $status, or something else was written" >&2
    failed=$((failed + 1))
  fi
}
refused_program() { # status, word
  refused "$1" "$2" "$work/program" examples/first/a.script
}
refused_script() { # word
  refused 4 "$1" examples/first/a.hex "$work/script"
}

printf '0410051' >"$work/program"
refused_program 3 'program badhexline'
# The three bytes that some editors put before a text are no part of a word, an event or a record.
printf '\xef\xbb\xbf04100513\n' >"$work/program"
refused_program 3 'program badhexline'
head -c 4115 examples/first/a.elf >"$work/program"
refused_program 3 'program truncated'
# A comment of 16 MiB is a file without a word, and one of a byte more is too long.
head -c 16777216 /dev/zero | tr '\0' '#' >"$work/program"
refused_program 3 'program badentry'
printf '#' >>"$work/program"
refused_program 3 'program toolong'

printf 'step 0\n step 0\n' >"$work/script"
refused_script 'script badline'
printf '\xef\xbb\xbfstep 0\n' >"$work/script"
refused_script 'script badline'
printf 'step 1\n' >"$work/script"
refused_script 'script outofrange'
yes validate | head -n 1000001 >"$work/script"
refused_script 'script toomany'
# A number of a million digits, and lines that lack all but the first half of their end.
{ printf 'deliver '; head -c 1000000 /dev/zero | tr '\0' '7'; echo; } >"$work/script"
refused_script 'script badline'
printf '\r\r\r' >"$work/script"
refused_script 'script badline'
# A comment of 32 MiB is a script without an event, and one of a byte more is too long.
head -c 33554433 /dev/zero | tr '\0' '#' >"$work/script"
refused_script 'script toolong'

# A control file has a script's causes, and is looked at after the script.
refused_control() { # word, script
  ./safetynet roll --nodes 2 examples/shared/count.hex "$2" "$work/control" >"$work/console" 2>"$work/report"
  local status=$?
  if [ "$status" -eq 4 ] && [ ! -s "$work/console" ] && says_why "$1"; then
    passed=$((passed + 1))
  else
    echo "a control file that is refused as $1: status $status, or something else was written" >&2
    failed=$((failed + 1))
  fi
}
moved=examples/roll/moved_block.script
for line in 'order' 'order  0' 'order 00' 'repeat -1' 'finish 0' 'step 0' 'deliver 18446744073709551616' 'Order 0'; do
  printf 'order 0\n%s\n' "$line" >"$work/control"
  refused_control 'script badline' "$moved"
done
printf 'order 2\n' >"$work/control"
refused_control 'script outofrange' "$moved"
printf 'step 0\n step 0\n' >"$work/bad"
refused_control 'script badline' "$work/bad"
yes finish | head -n 1000001 >"$work/control"
refused_control 'script toomany' "$moved"
cp "$work/script" "$work/control"
refused_control 'script toolong' "$moved"

# A save file is refused before the script is looked at.
refused_save() { # word, program, save file
  ./safetynet resume "$2" "$3" "$work/bad" >"$work/console" 2>"$work/report"
  local status=$?
  if [ "$status" -eq 12 ] && [ ! -s "$work/console" ] && says_why "$1"; then
    passed=$((passed + 1))
  else
    echo "a save file that is refused as $1: status $status, or something else was written" >&2
    failed=$((failed + 1))
  fi
}
letters=examples/save/letters.hex
refused_save 'save notlegal' "$letters" examples/save/spoiled.save
refused_save 'save setfull' "$letters" examples/save/crowded.save
sed '$d' examples/save/once.save >"$work/save"
refused_save 'save badline' "$letters" "$work/save"
{ cat examples/save/once.save; echo end; } >"$work/save"
refused_save 'save badline' "$letters" "$work/save"
sed '4s/.*/dead a0\ndead b0/' examples/save/once.save >"$work/save"
refused_save 'save cutoff' "$letters" "$work/save"
sed '3s/.*/marks 2 24 1/' examples/save/once.save >"$work/save"
refused_save 'save outofrange' "$letters" "$work/save"
sed 's/ 00000000 0$/ 00000000 0 41/' examples/save/first.save >"$work/save"
refused_save 'save notlegal' examples/first/a.hex "$work/save"
printf 'safetynet-save 1\nconfig 1 16 4 256\nmarks 1 1 4\ngiven 0 42\nrec 0 00000000 0\nrec 0 00000000 0 41\nend\n' >"$work/save"
refused_save 'save unread' examples/shared/echo.hex "$work/save"
head -c 67108865 /dev/zero >"$work/save"
refused_save 'save toolong' "$letters" "$work/save"

printf '2 00000000 0\n' >"$work/trace"
refused 4 'script outofrange' examples/shared/count.hex "$work/trace" 2 check
printf '\xef\xbb\xbf0 00000000 0\n' >"$work/trace"
refused 4 'script badline' examples/shared/count.hex "$work/trace" 2 check
printf '0 00000000 0\n0 00000000 0 4G\n' >"$work/trace"
refused 4 'script badline' examples/shared/echo.hex "$work/trace" 1 check
printf '\r\r\r' >"$work/trace"
refused 4 'script badline' examples/shared/count.hex "$work/trace" 2 check
yes '0 00000000 0' | head -n 1000001 >"$work/trace"
refused 4 'script toomany' examples/shared/count.hex "$work/trace" 2 check
cp "$work/script" "$work/trace"
refused 4 'script toolong' examples/shared/count.hex "$work/trace" 2 check
refused 2 store examples/shared/count.hex examples/traces/lacking.trace 2 check

for nodes in 0 17 x; do
  refused 1 usage examples/first/a.hex examples/first/a.script "$nodes"
done

# What the commands put that turn words into lines and back is read as the same program again.
./safetynet dis examples/first/a.elf >"$work/text" 2>"$work/report" && ./safetynet asm "$work/text" >"$work/program" 2>>"$work/report"
status=$?
if [ "$status" -eq 0 ] && [ ! -s "$work/report" ] && diff <(./safetynet dis "$work/program") "$work/text"; then
  passed=$((passed + 1))
else
  echo "a listing of examples/first/a.elf: status $status, or another listing of what it is assembled to" >&2
  failed=$((failed + 1))
fi
# Each text in examples/asm and examples/lessons has the words of the file beside it.
for text in examples/{asm,lessons}/*.s; do
  if ./safetynet asm "$text" 2>"$work/report" | cmp -s - "${text%.s}.hex" && [ ! -s "$work/report" ]; then
    passed=$((passed + 1))
  else
    echo "$text is assembled to other words than ${text%.s}.hex has" >&2
    failed=$((failed + 1))
  fi
done
refused 2 store examples/first/lacking.hex examples/first/a.script

told examples
