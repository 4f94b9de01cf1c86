# shellcheck shell=bash
# Sourced by a script of tests/gate: a folder of its own, which goes with the script, and what counts the checks. The script ends by `told NAME`.
failed=0 passed=0
work=$(mktemp -d) && [ -d "$work" ] || exit 1
trap 'rm -rf "$work"' EXIT

is_so() { # what it shows, command..
  local what=$1
  shift
  if "$@"; then passed=$((passed + 1)); else echo "not so: $what" >&2; failed=$((failed + 1)); fi
}
has() { # tool, what is skipped without it
  command -v "$1" >/dev/null || { echo "skipped, since $1 isn't there: $2"; false; }
}
is_silent() { # command..
  "$@" >"$work/said" 2>&1
  local status=$?
  head -n 5 "$work/said" >&2
  [ "$status" -eq 0 ] && [ ! -s "$work/said" ]
}
mypy_says() { # options and files..
  mypy --strict --no-error-summary --cache-dir "$work/mypy" "$@"
}
# Debian's modules belong to Debian's Python, and another one may come first on the path.
python_with() { # modules..
  local python
  for python in python3 /usr/bin/python3; do
    if command -v "$python" >/dev/null && "$python" -c "import sys; sys.version_info >= (3, 9) or sys.exit(1)
for name in sys.argv[1:]: __import__(name)" "$@" 2>/dev/null; then
      echo "$python"
      return
    fi
  done
  return 1
}
passes_pytest() { # Python, the folder of what is tested
  (cd "$2" && "$1" -m pytest -q) >"$work/tests" 2>&1
  local status=$?
  [ "$status" -eq 0 ] || tail -n 40 "$work/tests" >&2
  tail -n 1 "$work/tests"
  return "$status"
}
told() { # the script's name
  echo "$1: $passed passed, $failed failed"
  [ "$failed" -eq 0 ]
}
