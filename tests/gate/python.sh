#!/usr/bin/env bash
# The Python package of python/: its types, its tests over the real program, its examples at their defaults, and that it installs without a network.
# A part whose tool isn't there is skipped. The program is ./safetynet, or what SAFETYNET says.
set -u
cd "$(dirname "$0")/../.." || exit 1
. tests/gate/lib/checks.sh
export SAFETYNET=${SAFETYNET:-$PWD/safetynet} PYTHONDONTWRITEBYTECODE=1
export MYPY_CACHE_DIR=$work/mypy

skipped() { # the tool that isn't there
  echo "python: skipped: $1 isn't here"
}
typed() { # folder, files..
  (cd "$1" && shift && MYPYPATH=$top/python:$top/python/examples is_silent_but_success mypy --strict --config-file "$top/python/pyproject.toml" "$@")
}
is_silent_but_success() { # command..
  "$@" >"$work/said" 2>&1
  local status=$?
  [ "$status" -eq 0 ] || head -n 20 "$work/said" >&2
  [ "$status" -eq 0 ]
}
top=$PWD

# The built program is called by itself: the script before it looks at all sources each time, and there are thousands of calls.
if [ "$SAFETYNET" = "$top/safetynet" ]; then
  "$SAFETYNET" --build || { echo "the program was not built" >&2; exit 1; }
  SAFETYNET=$top/build/safetynet
fi

if command -v mypy >/dev/null; then
  is_so "the package is typed" typed python safetynet
  mapfile -t examples < <(cd python/examples && printf '%s\n' *.py)
  is_so "the examples are typed" typed python/examples "${examples[@]}"
  mapfile -t tests < <(cd python/tests && printf '%s\n' *.py)
  is_so "the tests are typed" typed python/tests "${tests[@]}"
else
  skipped mypy
fi

if python=$(python_with pytest hypothesis); then
  is_so "the tests pass" passes_pytest "$python" python
else
  skipped "pytest or hypothesis"
fi

# On a busy machine an example gets more time than it asks for itself, so that it shows something.
shows() { # example, what it prints, its words..
  local name=$1 wanted=$2
  shift 2
  PYTHONPATH=python "$python" "python/examples/$name.py" "$@" >"$work/shown" 2>&1
  local status=$?
  if [ "$status" -eq 0 ] && grep -q "$wanted" "$work/shown"; then return; fi
  head -n 20 "$work/shown" >&2
  false
}
if python=$(python_with); then
  is_so "explore counts outcomes" shows explore "^Observation SB Never 0 [1-9]" --seconds 300
  is_so "and none that one memory hasn't" [ "$(grep -c '[:*]>' "$work/shown")" = "$(grep -Ec ':>0:x7=(0; 1:x7=1|1; 1:x7=0|1; 1:x7=1);$' "$work/shown")" ]
  is_so "the scheduler's trace is legal" shows scheduler "the committed trace is legal"
  printf '%s\n' core,op,address,size,value 0,store,0x80001000,4,7 1,load,0x80001002,2,0 >"$work/table.csv"
  is_so "a table is judged" shows judge "^legal: 2 accesses" "$work/table.csv"
else
  skipped "Python 3.9"
fi
if python=$(python_with hypothesis); then
  is_so "fuzz finds nothing" shows fuzz "^10 lists of events .* every recovery point is a consistent cut" --seconds 300
else
  skipped hypothesis
fi

if python=$(python_with venv ensurepip setuptools wheel); then
  # The new environment sees the setuptools of the system, since nothing is fetched; the package is built from a copy, which leaves the folder clean.
  installs() {
    cp -r python "$work/source" && "$python" -m venv --system-site-packages "$work/fresh" &&
      "$work/fresh/bin/python" -m pip install -q --no-index --no-build-isolation "$work/source"
  }
  says() {
    (cd "$work" && ./fresh/bin/python -c "
import pathlib, safetynet
assert pathlib.Path(safetynet.__file__).with_name('py.typed').exists() and 'fresh' in safetynet.__file__, safetynet.__file__
print(safetynet.Machine([0x73]).step(0).name)")
  }
  is_so "pip installs it" is_silent_but_success installs
  is_so "and it is used from there" [ "$(says)" = retired ]
else
  skipped "venv, setuptools or wheel"
fi

told python
