#!/usr/bin/env bash
# Times `replay` of a million events on four and on sixteen nodes, beside a reference simulator in the same run, with both
# programs' greatest memory and whether their reports are the same bytes. The events are the simulator's: on four nodes those
# that it generates, on sixteen the journal of a run of its own, with every 97th message lost.
#
#   bench/replay_nodes.sh PROGRAM SIMULATOR [EVENTS]
set -eu
[ $# -ge 2 ] || { sed -n '2,6s/^# \{0,1\}//p' "$0"; exit 2; }
program=$(readlink -f "$1") simulator=$(readlink -f "$2") events=${3:-1000000}
folder=$(mktemp -d)
trap 'rm -rf "$folder"' EXIT
cd "$folder"

"$simulator" gen "$events" program.hex four.script >/dev/null 2>&1
"$simulator" run program.hex --nodes 16 --interval 20 --wait 2000 --lose-every 97 --budget "$events" --journal \
  >/dev/null 2>journal || true
grep -v '^#' journal >sixteen.script

measure() { # label, command, nodes, script
  /usr/bin/time -f "%e %M" -o time "$2" replay --nodes "$3" program.hex "$4" >console 2>report || true
  read -r seconds kilobytes <time
  printf '%-10s %2s nodes %8s events %8s s %8s KiB  console %s report %s\n' "$1" "$3" "$(wc -l <"$4")" "$seconds" "$kilobytes" \
    "$(sha256sum <console | cut -c1-12)" "$(sha256sum <report | cut -c1-12)"
}
for nodes in 4 16; do
  script=four.script
  [ "$nodes" = 4 ] || script=sixteen.script
  measure simulator "$simulator" "$nodes" "$script"
  measure program "$program" "$nodes" "$script"
done
