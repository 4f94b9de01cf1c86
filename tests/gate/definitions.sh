#!/usr/bin/env bash
# Folds what the program says of the states of a few random scripts, and holds its lines and each folded state against the definitions, which are evaluated
# as they stand. Then does the same with programs that say something else, each of which must be found out. More scripts, by hand: docs/MEASURES.md.
set -u
cd "$(dirname "$0")/../.." || exit 1
. tests/gate/lib/checks.sh
export PYTHONDONTWRITEBYTECODE=1
./safetynet --build || { echo "the program was not built" >&2; exit 1; }
program=$PWD/build/safetynet
states() { # program, count, file..
  tests/definitions/states.py program "$1" "$2" gate "${@:3}" 2>"$work/error"
}

compared() {
  states "$program" 12 "$work/stored" >"$work/said" && grep -q '^12 scripts of [0-9]* to [0-9]* nodes, no difference; ' "$work/said" &&
    cmp "$work/stored" <(printf '%s\n' "\$ tests/definitions/states.py program PROGRAM 12 gate" "$(cat "$work/said")")
}
is_so "12 random scripts are as the definitions have them" compared
printf '%s\n' '# A head.' '' "\$ tests/definitions/states.py program PROGRAM 12 gate" 'old' '' "\$ another" 'stays' >"$work/stored"
stored() {
  states "$program" 12 "$work/stored" >"$work/said" &&
    cmp "$work/stored" <(printf '%s\n' '# A head.' '' "\$ tests/definitions/states.py program PROGRAM 12 gate" "$(cat "$work/said")" '' "\$ another" 'stays')
}
is_so "its line takes the place of the one that stood there" stored

# A program whose states pass through a filter on their way.
finds_out() { # what is said of it, the filter's words..
  local said=$1
  shift
  cat >"$work/wrong" <<END
#!/usr/bin/env bash
[ "\$1" = replay ] || exec "$program" "\$@"
"$program" "\$@" 2>"$work/report"
status=\$?
$(printf '%q ' "$@") "$work/report" >&2 || status=1
exit "\$status"
END
  chmod +x "$work/wrong"
  states "$work/wrong" 12 >"$work/said"
  [ "$?" -eq 1 ] && grep -q -- "$said" "$work/said"
}
is_so "a part that isn't told is found out" finds_out "the folded state isn't the machine's" sed '1!s/"parts":{"nodes":\[{.*\],"homes"/"parts":{"nodes":[],"homes"/'
is_so "a wrong register is found out" finds_out "the folded state isn't the machine's" sed 's/"x5":"80001000"/"x5":"80001004"/'
is_so "a message in another switch is found out" finds_out "the folded state isn't the machine's" sed 's/"switch":"a0"/"switch":"b0"/'
is_so "another word in an answer is found out" finds_out "and the definitions have" sed 's/"answer":"retired"/"answer":"missed"/'
is_so "a summary that counts one more is found out" finds_out "and the definitions have" sed 's/"committed":\([0-9]*\),"released":\([0-9]*\),"cores"/"committed":1\1,"released":\2,"cores"/'
is_so "a line too few is found out" finds_out "^case [0-9]*: line 1: " sed 2d
is_so "a last line too few is found out" finds_out "is lacking: " sed "\$d"
is_so "a replay that isn't done is found out" finds_out "^case 0: status 1 of replay --states " false
is_so "a line too many is found out" finds_out "lines, and [0-9]* are due" sed "\$p"
if has shellcheck "checking this part"; then
  is_so "shellcheck has nothing to say of it" shellcheck -x tests/gate/definitions.sh
fi
told definitions
