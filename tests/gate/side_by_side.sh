#!/usr/bin/env bash
# Shows how tests/gates.py does parts side by side, on small ones: what each said stands together, one that fails or hangs keeps no other from being told
# and makes the status 1, and nothing goes on behind it. It needs neither the program nor rt.
set -u
cd "$(dirname "$0")/../.." || exit 1
. tests/gate/lib/checks.sh
export LC_ALL=C
mkdir -p "$work/top/tests/gate"
cp tests/gates.py "$work/top/tests"
cd "$work/top" || exit 1

part() { # its name; its text is the standard input
  cat >"tests/gate/$1.sh"
}
# Does parts: the status, and what is said without the seconds, is to be this.
does() { # what it shows, status, words..; what is said is the standard input
  local what=$1 status=$2 found
  shift 2
  tests/gates.py "$@" >"$work/out" 2>"$work/err"
  found=$?
  is_so "$what: status $found and not $status, $(head -c 500 "$work/err")" [ "$found" -eq "$status" ]
  is_so "$what: what is said" diff - <(sed 's/ [0-9]* s\b/ N s/' "$work/out")
}
gone() { # a file that names a folder
  [ -s "$1" ] && [ ! -e "$(cat "$1")" ]
}

has_ended() { # a process, which may not have been waited for
  for _ in {1..100}; do
    case $(sed 's/.*) //' "/proc/$1/stat" 2>/dev/null) in '' | Z* | X*) return 0 ;; esac
    sleep 0.1
  done
  false
}

part fails <<'END'
echo "it speaks"
echo "and complains" >&2
exit 3
END
part long <<'END'
for count in 1 2 3; do echo "long, $count"; sleep 0.4; done
printf 'the end'
END
part hangs <<END
# the shell's own word of its end isn't awaited
exec 2>/dev/null
folder=\$(mktemp -d)
trap 'rm -rf "\$folder"; echo "what it made is gone"' EXIT
echo "\$folder" >"$work/hung"
sleep 500
echo "this is never said"
END
does "one that fails, one that hangs and one that is long" 1 --limit 6 <<'END'
# fails failed with status 3 after N s
it speaks
and complains
# long passed after N s
long, 1
long, 2
long, 3
the end
# hangs was ended at its limit after N s
what it made is gone
# 3 parts in N s; failed: fails, hangs
END
is_so "what the one that hung had made is gone" gone "$work/hung"
does "those that are named" 0 tests/gate/long.sh <<'END'
# long passed after N s
long, 1
long, 2
long, 3
the end
# 1 parts in N s; none failed
END

# Two that wait for each other are done at once, and not one after the other. Which ends first is left to them.
for name in one other; do
  part $name <<END
touch "$work/\$\$.here"
for try in {1..50}; do set -- "$work"/*.here; [ \$# -lt 2 ] || exit 0; sleep 0.1; done
exit 1
END
done
tests/gates.py --at-once 2 tests/gate/{one,other}.sh >"$work/out" 2>&1
is_so "two at once meet" [ "$?:$(sort "$work/out" | sed 's/ [0-9]* s\b//' | paste -sd ,)" = "0:# 2 parts in; none failed,# one passed after,# other passed after" ]
rm "$work"/*.here
part one <<END
touch "$work/one.here"
sleep 0.5
rm "$work/one.here"
END
part other <<END
[ ! -e "$work/one.here" ]
END
does "one at a time don't" 0 --at-once 1 tests/gate/{one,other}.sh <<'END'
# one passed after N s
# other passed after N s
# 2 parts in N s; none failed
END

# One that doesn't end when it is told to, with what it began.
part deaf <<END
trap '' TERM
(trap '' TERM; echo "\$BASHPID" >"$work/child"; while :; do sleep 500; done) &
echo "deaf"
while :; do sleep 500; done
END
sed 's/^GRACE = .*/GRACE = 0.5/' "$OLDPWD/tests/gates.py" >tests/gates.py
does "one that doesn't want to end" 1 --limit 1 tests/gate/deaf.sh <<'END'
# deaf was ended at its limit after N s
deaf
# 1 parts in N s; failed: deaf
END
is_so "is ended all the same, and what it began too" has_ended "$(cat "$work/child")"

# An end from outside ends what goes on.
cp "$OLDPWD/tests/gates.py" tests/gates.py
rm "$work/hung"
tests/gates.py tests/gate/hangs.sh >"$work/out" 2>&1 &
for _ in {1..100}; do
  [ -s "$work/hung" ] && break
  sleep 0.1
done
kill "$!"
wait "$!"
is_so "ended from outside, the status tells it" [ $? -eq 143 ]
is_so "and what goes on is ended" gone "$work/hung"

# The program is built once, and the parts that need it aren't begun without it.
for name in one other; do part $name <<<'[ -e built ] || { echo "the program was not built" >&2; exit 1; }'; done
printf '#!/bin/sh\necho built >>built\n' >safetynet && chmod +x safetynet
does "parts that need the program" 0 --at-once 1 tests/gate/{one,other}.sh <<'END'
# one passed after N s
# other passed after N s
# 2 parts in N s; none failed
END
is_so "it is built once, before them" [ "$(cat built)" = built ]
printf '#!/bin/sh\nexit 125\n' >safetynet
does "where it can't be built" 1 tests/gate/{one,long,other}.sh <<'END'
# the program isn't built, so these aren't begun: one, other
# long passed after N s
long, 1
long, 2
long, 3
the end
# 3 parts in N s; failed: one, other
END

# Words that say nothing.
does "a part that isn't there" 2 tests/gate/none.sh </dev/null
does "none at a time" 2 --at-once 0 </dev/null
cd "$OLDPWD" || exit 1
if has shellcheck "looking through this script"; then
  is_so "shellcheck has nothing to say of it" shellcheck -x tests/gate/side_by_side.sh
fi

told "side by side"
