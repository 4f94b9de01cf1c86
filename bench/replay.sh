#!/usr/bin/env bash
# Times `replay` of a million events on one node, beside a reference simulator in the same run, with both programs' greatest
# memory; and of half as many, to show that the time is linear.
#
#   bench/replay.sh PROGRAM SIMULATOR
set -eu
[ $# -eq 2 ] || { sed -n '2,5s/^# \{0,1\}//p' "$0"; exit 2; }
program=$(readlink -f "$1") simulator=$(readlink -f "$2")
folder=$(mktemp -d)
trap 'rm -rf "$folder"' EXIT
cd "$folder"

# A program that adds for ever would need a jump; 1,023 additions and a trap serve: recoveries bring the core back.
{ for _ in $(seq 1023); do echo 00150513; done; echo 00000073; } >program.hex
script() { # events
  awk -v count="$1" 'BEGIN {
    for (k = 0; k < count; k++) {
      turn = k % 1000
      if (turn == 999) print "recover"; else if (turn % 50 == 49) print "report 0"; else print "step 0"
    }
  }'
}
script 500000 >half.script
script 1000000 >whole.script

measure() { # label, command, script
  /usr/bin/time -f "%e %M" -o time "$2" replay --nodes 1 program.hex "$3" >console 2>report || true
  read -r seconds kilobytes <time
  printf '%-12s %-14s %8s s %8s KiB %s\n' "$1" "$3" "$seconds" "$kilobytes" "$(sha256sum <report | cut -c1-12)"
}
for script in half.script whole.script; do
  measure simulator "$simulator" "$script"
  measure program "$program" "$script"
done
