#!/usr/bin/env bash
# Runs the programs of examples/c on 1, 4 and 16 nodes, without losses and with losses: whatever the order of the turns is, a run that
# ends well has put out exactly what stands beside the program, and one that spends its budget the beginning of it. A journal gives
# the same console and summary again. The images are those that the compiler makes, where it is the one that README.md names, and
# examples/c/nodes and build refuse what they can't do.
set -u
cd "$(dirname "$0")/../.." || exit 1
. tests/gate/lib/checks.sh
safetynet=${SAFETYNET:-./safetynet}
programs=(lock barrier ring queue sort stencil)

[ -n "${SAFETYNET-}" ] || ./safetynet --build || { echo "the program was not built" >&2; exit 1; }

output_of() { # program, nodes
  local file=examples/c/$1-$2.output
  [ -e "$file" ] || file=examples/c/$1.output
  echo "$file"
}
for program in "${programs[@]}"; do
  for nodes in 1 4 16; do
    is_so "$program has an image for $nodes nodes" examples/c/nodes "$nodes" "examples/c/$program.hex" >"$work/$program-$nodes.hex"
  done
done

# A run that its schedule keeps from its end is no failure as long as what it has put out is right; more than a few such runs are one.
runs=0 spent=0 lost=0
ends() { # program, nodes, options of the run
  local name=$1-$2 image=$work/$1-$2.hex output status
  output=$(output_of "$1" "$2")
  shift 2
  runs=$((runs + 1))
  "$safetynet" run --nodes "${name##*-}" "$@" "$image" >"$work/console" 2>"$work/report"
  status=$?
  lost=$((lost + $(sed -n 's/^\(# \)\?probe 0 5 //p' "$work/report")))
  case $status in
    0) cmp "$work/console" "$output" ;;
    6) spent=$((spent + 1)) && cmp "$work/console" <(head -c "$(wc -c <"$work/console")" "$output") ;;
    *) echo "status $status: $(tail -n 1 "$work/report")" >&2 && false ;;
  esac
}
# Where more nodes take part more messages are on their way to a validation: so losses are rarer there, and a recovery comes later.
with_losses=([1]="--wait 5000 --lose-every 2000" [4]="--wait 5000 --lose-every 2000" [16]="--wait 30000 --lose-every 15000")
for nodes in 1 4 16; do
  read -ra losses <<<"${with_losses[nodes]}"
  for program in "${programs[@]}"; do
    is_so "$program on $nodes nodes puts out what it must" ends "$program" "$nodes" --wait 60000 --seed 1
    is_so "$program on $nodes nodes with losses puts out what it must" ends "$program" "$nodes" "${losses[@]}" --seed 2
  done
done
is_so "of $runs runs hardly any spends its budget, not $spent" [ $((spent * 6)) -le "$runs" ]

is_so "and in them messages are lost" [ "$lost" -gt 0 ]

# What a journal gives again; of the run the summary's lines have a mark, and of the replay they stand behind the events.
is_so "a run with losses keeps a journal" ends ring 4 --wait 5000 --lose-every 500 --seed 3 --journal
cp "$work/report" "$work/journal" && cp "$work/console" "$work/first"
is_so "a message was lost" grep -q '^lose ' "$work/journal"
is_so "the journal is replayed" "$safetynet" replay --nodes 4 "$work/ring-4.hex" "$work/journal" >"$work/console" 2>"$work/report"
is_so "with the same console" cmp "$work/first" "$work/console"
is_so "and the same summary" diff <(grep '^# ' "$work/journal" | grep -vE '^# (worker |why: |safetynet: )' | sed 's/^# //') <(sed -n '/^events /,$p' "$work/report")

# Programs for any number have one image for all; nodes beyond an image's number end at once, with their number.
for program in lock queue sort; do
  is_so "$program needs no number of nodes" cmp "examples/c/$program.hex" "$work/$program-16.hex"
done
is_so "an image for 1 node runs on 4" "$safetynet" run --nodes 4 "$work/ring-1.hex" >"$work/console" 2>"$work/report"
is_so "as on 1" cmp "$work/console" examples/c/ring-1.output
is_so "and node 3 ends with 3" grep -q '^core 3 .* exited 3 ' "$work/report"

is_refused() { # what is said, a script of examples/c, its words..
  local said=$1 script=$2
  shift 2
  "examples/c/$script" "$@" >"$work/out" 2>"$work/err"
  [ $? -eq 1 ] && [ ! -s "$work/out" ] && diff <(echo "$script: $said") "$work/err"
}
image=examples/c/ring.hex
for number in 0 17 04 x; do
  is_so "no image for $number nodes" is_refused "$number is no number from 1 to 16" nodes "$number" "$image"
done
is_so "nor without an image" is_refused "give a number of nodes and an image" nodes 4
is_so "nor of one that isn't there" is_refused "$work/lacking can't be read" nodes 4 "$work/lacking"
is_so "nor of one without its number" is_refused "examples/first/a.hex doesn't begin with the number of nodes" nodes 4 examples/first/a.hex
echo "# nothing" >"$work/empty"
is_so "nor of one without a word" is_refused "$work/empty has no word" nodes 4 "$work/empty"
is_so "an image's number can be taken back" cmp "$image" <(examples/c/nodes 4 "$work/ring-16.hex")
is_so "images are made in a folder" is_refused "$work/lacking is no folder" build "$work/lacking"
is_so "in one alone" is_refused "one folder at most" build "$work" "$work"

tool=riscv64-unknown-elf
if has "$tool-gcc" "the images are those that the compiler makes"; then
  compiler=$("$tool-gcc" --version | head -n 1) linker=$("$tool-ld" --version | head -n 1)
  if grep -qF "$compiler" examples/c/README.md && grep -qF "$linker" examples/c/README.md; then
    mkdir "$work/made"
    is_so "the images are made anew" examples/c/build "$work/made"
    for program in "${programs[@]}"; do
      is_so "$program has the words that the compiler gives" cmp "examples/c/$program.hex" "$work/made/$program.hex"
    done
  else
    echo "skipped, since README.md names another compiler than $compiler and $linker: the images are those that it makes"
  fi
fi
if has shellcheck "the scripts of examples/c are as shellcheck wants them"; then
  is_so "shellcheck finds nothing" is_silent shellcheck examples/c/build examples/c/nodes
fi

told "c programs"
