#!/usr/bin/env bash
# What is counted of replays and runs, runs for each seed of a range, and the accesses of a committed trace, each held against what another command
# says: the statistics are the same for a run and for a replay of its journal, a block of a seed is that seed's own run, and the accesses are as many as the
# trace has records and legal to `judge`. The program is ./safetynet.
set -u
cd "$(dirname "$0")/../.." || exit 1
. tests/gate/lib/checks.sh
./safetynet --build || { echo "the program was not built" >&2; exit 1; }
program=$PWD/build/safetynet count=examples/shared/count.hex turns=examples/order/turns.hex

# A replay with statistics is the replay, and then lines that all have a name and a number.
counted_replay() { # program, script, options..
  "$program" replay "${@:3}" "$1" "$2" >"$work/console" 2>"$work/report"
  local status=$?
  "$program" replay --statistics "${@:3}" "$1" "$2" >"$work/again" 2>"$work/counted"
  [ "$?" -eq "$status" ] && cmp "$work/console" "$work/again" && cmp "$work/report" <(grep -v '^stat ' "$work/counted") &&
    ! grep '^stat ' "$work/counted" | grep -vE '^stat ([0-9]+ )?[a-z_]+ [0-9]+$|^stat recovery [0-9]+ at [0-9]+ to [0-9]+ undone [0-9]+ entries [0-9]+ messages [0-9]+$' &&
    [ "$(sed -n 's/^stat events //p' "$work/counted")" = "$(sed -n 's/^events //p' "$work/report")" ] &&
    [ "$(grep -c '^stat recovery ' "$work/counted")" -eq "$(grep -c ': recovered ' "$work/report")" ]
}
for script in examples/shared/*.script; do
  is_so "$script is counted" counted_replay $count "$script" --nodes 2
done

# A run in an order is counted as the replay of its journal is, and puts all else that it puts without.
counted_run() { # order, seed, options.. program
  local order=$1 seed=$2
  shift 2
  "$program" run --order "$order" --seed "$seed" --statistics "$@" >"$work/console" 2>"$work/report"
  local status=$?
  "$program" run --order "$order" --seed "$seed" "$@" >"$work/again" 2>"$work/plain"
  [ "$?" -eq "$status" ] && cmp "$work/console" "$work/again" && diff "$work/plain" <(grep -v '^stat ' "$work/report") || return 1
  "$program" run --order "$order" --seed "$seed" --journal "$@" >/dev/null 2>"$work/journal"
  "$program" replay --statistics --nodes 4 "${@: -1}" "$work/journal" >/dev/null 2>"$work/replayed"
  diff <(grep '^stat ' "$work/report") <(grep '^stat ' "$work/replayed")
}
# A run by threads has another schedule each time, so its numbers are held against its own summary; on one node its journal is the one of a run in rounds.
counted_threads() { # options.. program
  "$program" run --statistics "$@" >"$work/console" 2>"$work/report"
  [ "$?" -le 10 ] && [ "$(sed -n 's/^stat events //p' "$work/report")" = "$(sed -n 's/^events //p' "$work/report")" ] &&
    [ "$(awk '/^stat [0-9]+ committed / { sum += $4 } END { print sum }' "$work/report")" = "$(sed -n 's/^committed //p' "$work/report")" ] &&
    [ "$(grep -v '^stat ' "$work/report" | grep -c .)" -gt 4 ]
}
is_so "a run by threads is counted" counted_threads --nodes 4 --lose-every 60 --wait 500 --budget 5000 $count
one_node() {
  "$program" run --statistics --nodes 1 --interval 10 examples/first/a.hex >"$work/console" 2>"$work/report" &&
    "$program" run --statistics --order round --nodes 1 --interval 10 examples/first/a.hex >"$work/again" 2>"$work/rounds" &&
    cmp "$work/console" "$work/again" && diff "$work/report" "$work/rounds" && grep -q '^stat events ' "$work/report"
}
is_so "a run by one thread is counted as one in rounds" one_node
for seed in 1 2 3; do
  for order in round drawn; do
    is_so "a run in order $order by seed $seed is counted as its journal" counted_run $order $seed --nodes 4 --lose-every 60 --wait 500 --budget 5000 $count
  done
done

# The blocks of a range of seeds are the runs of its seeds: without the probes' numbers, which a block lacks, and with how they ended.
block_of() { # seed, order, words..
  "$program" run --order "$2" --seed "$1" "${@:3}" 2>&1 >>"$work/consoles" | {
    echo "seed $1"
    awk '/^# safetynet: / { sub(/^# safetynet: /, ""); ended = $0; next } /^# why: |^probe / { next } { print } END { print "end " (ended ? ended : "done") }'
  }
}
seeds() { # first, last, order, words..
  local seed
  : >"$work/consoles"
  for ((seed = $1; seed <= $2; seed++)); do block_of "$seed" "${@:3}"; done >"$work/wanted"
  "$program" run --seeds "$1-$2" --order "${@:3}" >"$work/console" 2>"$work/report" || return 1
  diff "$work/wanted" "$work/report" && cmp "$work/consoles" "$work/console"
}
is_so "ten seeds in drawn turns" seeds 1 10 drawn --budget 2000 $turns
is_so "seeds whose runs spend their budgets" seeds 0 3 round --nodes 4 --lose-every 20 --wait 50 --budget 300 $count
greatest() { # which bash can't count to
  local seed=18446744073709551615
  : >"$work/consoles"
  block_of $seed drawn --nodes 2 --budget 500 $count >"$work/wanted"
  "$program" run --seeds $seed-$seed --order drawn --nodes 2 --budget 500 $count >"$work/console" 2>"$work/report" && diff "$work/wanted" "$work/report"
}
is_so "one seed, the greatest" greatest
parted() {
  "$program" run --seeds 1-6 --order drawn --budget 1000 $turns >"$work/console" 2>"$work/report"
  for range in 1-2 3-6; do "$program" run --seeds $range --order drawn --budget 1000 $turns 2>>"$work/parts"; done >"$work/again"
  cmp "$work/report" "$work/parts" && cmp "$work/console" "$work/again"
}
is_so "a range that is parted puts the same" parted

# The accesses of a trace: a row a record, with its core, and legal by themselves.
rows() { # program, script, nodes
  "$program" replay --accesses --nodes "$3" "$1" "$2" >"$work/console" 2>"$work/report" &&
    "$program" replay --trace --nodes "$3" "$1" "$2" >"$work/again" 2>"$work/trace" && cmp "$work/console" "$work/again" || return 1
  diff <(grep -v '^#' "$work/trace" | cut -d ' ' -f 1) <(grep -v '^#' "$work/report" | tail -n +2 | cut -d , -f 1) &&
    diff <(grep '^#' "$work/trace") <(grep '^#' "$work/report") &&
    [ "$(head -n 1 "$work/report")" = 'core,pc,instruction,address,size,read,written,done' ]
}
judged() { # program, script, nodes: as accesses, with the program's words as those that memory begins with
  "$program" replay --accesses --nodes "$3" "$1" "$2" 2>"$work/report" >/dev/null || return 1
  python3 - "$work/report" "$1" >"$work/accesses" <<'END'
import csv
import sys

report, program = sys.argv[1:]
words = [it for it in open(program, encoding="ascii").read().split("\n") if it and not it.startswith("#")]
for place, word in enumerate(words):
    print(f"init {0x80000000 + 4 * place:08x} {word}")
rows = csv.DictReader(it for it in open(report, encoding="ascii") if not it.startswith("#"))
for row in rows:
    core, address, size, read, written, done = (row[it] for it in ("core", "address", "size", "read", "written", "done"))
    if done == "1":
        print(core, "sc", address, size, written)
    elif read and written:
        print(core, "amo", address, size, written, read)
    elif read:
        print(core, "lr" if row["instruction"].startswith("lr.w") else "r", address, size, read)
    elif written:
        print(core, "w", address, size, written)
END
  "$program" judge "$work/accesses" >/dev/null 2>"$work/verdict" && grep -q '^legal ' "$work/verdict"
}
for script in examples/shared/*.script; do
  is_so "the rows of $script" rows $count "$script" 2
  is_so "its accesses are legal" judged $count "$script" 2
done
"$program" run --nodes 4 --order drawn --seed 5 --lose-every 60 --journal $count >/dev/null 2>"$work/long"
is_so "the rows of a replay of a run's journal" rows $count "$work/long" 4
run_rows() { # a run has the rows of its journal's replay, and its own summary
  "$program" run --nodes 4 --order drawn --seed 5 --lose-every 60 --accesses $count >"$work/console" 2>"$work/rows"
  "$program" replay --accesses --nodes 4 $count "$work/long" >"$work/again" 2>"$work/replayed"
  cmp "$work/console" "$work/again" && diff "$work/rows" "$work/replayed" && [ "$(grep -c ',"amoadd' "$work/rows")" -gt 1 ]
}
is_so "the rows of a run in an order" run_rows
thread_rows() { # by threads: the header, rows that are legal by themselves, and the marked summary
  "$program" run --nodes 4 --accesses --lose-every 60 $count >/dev/null 2>"$work/rows"
  [ "$(head -n 1 "$work/rows")" = 'core,pc,instruction,address,size,read,written,done' ] &&
    [ "$(grep -vc '^#' "$work/rows")" -eq $(($(sed -n 's/^# committed //p' "$work/rows") + 1)) ]
}
is_so "the rows of a run by threads" thread_rows
is_so "its accesses are legal" judged $count "$work/long" 4

if has shellcheck "looking through this script"; then
  is_so "shellcheck has nothing to say of it" shellcheck -x tests/gate/counted.sh
fi

told counted
