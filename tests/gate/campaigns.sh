#!/usr/bin/env bash
# The campaigns of campaigns/: types, tests, and one of eight jobs on this machine, once more after it was killed, and on a Slurm of one node.
# A part whose tool isn't there is skipped. The program is ./safetynet, or what SAFETYNET says.
set -u
cd "$(dirname "$0")/../.." || exit 1
. tests/gate/lib/checks.sh
export PYTHONDONTWRITEBYTECODE=1 MYPY_CACHE_DIR=$work/mypy MPLCONFIGDIR=$work/matplotlib XDG_CACHE_HOME=$work/cache
top=$PWD
if [ -z "${SAFETYNET-}" ]; then
  ./safetynet --build || { echo "the program was not built" >&2; exit 1; }
  SAFETYNET=$top/build/safetynet
fi
export SAFETYNET

skipped() { # what isn't there, what is skipped
  echo "skipped, since $1 isn't there: $2"
}

if has shellcheck "looking through the campaigns' scripts"; then
  is_so "shellcheck has nothing to say" is_silent shellcheck campaigns/run campaigns/slurm_node campaigns/slurm/status.sh
fi
if has mypy "checking the campaigns' types"; then
  is_so "mypy has nothing to say" is_silent mypy --config-file campaigns/pyproject.toml --no-error-summary campaigns/campaign campaigns/tests/*.py
fi
if python=$(python_with pytest yaml); then
  is_so "the tests pass" passes_pytest "$python" campaigns
else
  skipped "pytest or yaml" "the campaigns' tests"
fi

cat >"$work/eight.yaml" <<'END'
product:
  program: examples/shared/count.hex
  seed: 1-2
  interval: [10, 20]
  lose_every: [0, 60]
  wait: 500
  budget: 3000
batch: 1
figures:
  - {name: events, x: interval, y: events, per: committed, series: lose_every}
END
refused() { # what is said, words..
  local said=$1
  shift
  campaigns/run --out "$work/refused" "$@" >"$work/out" 2>"$work/err"
  [ $? -eq 2 ] && [ ! -s "$work/out" ] && grep -q -- "$said" "$work/err" && [ "$(wc -l <"$work/err")" -eq 1 ]
}
campaign() { # folder, words..
  local out=$1
  shift
  campaigns/run "$work/eight.yaml" --out "$work/$out" "$@" >"$work/out" 2>"$work/err" && grep -q '^campaign: [0-9]' "$work/err" && return
  tail -n 30 "$work/err" "$work/$out/eight/logs/workflow.log" >&2
  false
}
same_table() { # folder: the tables don't depend on how or where the campaign was run
  cmp "$work/here/eight/runs.csv" "$work/$1/eight/runs.csv"
}
rows() { # folder
  cat "$work/$1"/eight/batches/*.jsonl 2>/dev/null | wc -l
}
# A program that notes its calls and takes its time, to be killed meanwhile.
notes_calls() {
  printf '#!/bin/sh\ncase "$*" in *"--budget 3000"*) echo call >>%q; sleep 0.5 ;; esac\nexec %q "$@"\n' "$work/calls" "$SAFETYNET" >"$work/noting" && chmod +x "$work/noting"
}
calls() {
  wc -l <"$work/calls"
}
killed() {
  SAFETYNET=$work/noting setsid campaigns/run "$work/eight.yaml" --out "$work/killed" -j 2 >/dev/null 2>&1 &
  local leader=$! end=$((SECONDS + 120))
  until [ "$(rows killed)" -ge 2 ] || [ "$SECONDS" -ge "$end" ]; do sleep 0.1; done
  kill -9 -- "-$leader"
  wait "$leader" 2>/dev/null
  [ "$(rows killed)" -ge 2 ] && unnoted killed
}
# Marks what is whole as what Snakemake was killed over, before it noted the end.
unnoted() { # folder
  local file marks=$work/$1/eight/.snakemake/incomplete
  mkdir -p "$marks"
  for file in "$work/$1"/eight/batches/*.jsonl; do
    echo '{}' >"$marks/$(printf 'batches/%s' "${file##*/}" | base64 -w 0 | tr +/ -_)"
  done
}
goes_on() {
  # what ran when it was killed ends by itself
  sleep 2
  local before
  before=$(calls)
  # six runs at most were lacking, and one more asks whether the program takes the budget
  SAFETYNET=$work/noting campaign killed -j 2 && [ $(($(calls) - before)) -le 7 ]
}

if python_with snakemake matplotlib yaml >/dev/null; then
  is_so "a campaign without its file is refused" refused "can't be read" "$work/lacking.yaml"
  sed 's/: 500/: 0/' "$work/eight.yaml" >"$work/wrong.yaml"
  is_so "a value that the program refuses is told before anything is run" refused "--wait 0" "$work/wrong.yaml"
  is_so "a campaign of eight jobs is run" campaign here -j 4
  is_so "it has eight rows, and each is a result" [ "$(grep -cE ',(done|budget),[06],' "$work/here/eight/runs.csv")" = 8 ]
  is_so "and a page with its figure" grep -q 'src="data:image/svg' "$work/here/eight/report.html"
  cp "$work/here/eight/runs.csv" "$work/once" && touch -d "1 hour ago" "$work/once"
  is_so "a second call does nothing" campaign here -j 4
  is_so "and leaves the table" cmp "$work/once" "$work/here/eight/runs.csv"
  is_so "a program that notes its calls is made" notes_calls
  is_so "a campaign is killed" killed
  is_so "the next call goes on where it was" goes_on
  is_so "and its table is that of one that wasn't killed" same_table killed

  if has slurmctld "a campaign on Slurm" && has munged "a campaign on Slurm"; then
    # its daemons go with this script, whatever comes
    trap '[ ! -e "$work/node" ] || campaigns/slurm_node stop "$work/node"; rm -rf "$work"' EXIT
    if SLURM_CONF=$(campaigns/slurm_node start "$work/node"); then
      export SLURM_CONF
      is_so "a campaign of eight jobs is run on Slurm" campaign slurm --profile campaigns/slurm
      is_so "by eight of its jobs" [ "$(find "$work/slurm/eight/logs" -name '*.slurm' 2>/dev/null | wc -l)" -ge 8 ]
      is_so "and its table is the same" same_table slurm
      is_so "Slurm is ended" campaigns/slurm_node stop "$work/node"
    else
      is_so "a Slurm of one node is started" false
    fi
  fi
else
  skipped "snakemake, matplotlib or yaml" "campaigns of eight jobs"
fi

told campaigns
