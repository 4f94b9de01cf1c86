#!/usr/bin/env bash
# Holds docs/lessons against the program: each command that they quote is done, and what they say that it writes is what it writes.
set -u
cd "$(dirname "$0")/../.." || exit 1
. tests/gate/lib/checks.sh
export PYTHONDONTWRITEBYTECODE=1
program=${SAFETYNET:-./safetynet}
if [ "$program" = ./safetynet ]; then
  ./safetynet --build || { echo "the program was not built" >&2; exit 1; }
fi
quoted() { # lessons
  python3 tests/quoted_lessons.py "$program" "$@" >"$work/said" 2>"$work/faults"
}
is_shown() { # command..
  "$@" || { head -n 20 "$work/faults" >&2; false; }
}
is_so "what the lessons quote is what the program writes" is_shown quoted
cat "$work/said"
is_so "there are six lessons" [ "$(find docs/lessons -name '[1-6]_*.md' | wc -l)" -eq 6 ]

# A lesson that isn't so is refused, by one line for what was changed.
mkdir -p "$work/docs/lessons" && ln -s "$PWD/examples" "$work/examples" && ln -s "$PWD/docs/pictures" "$work/docs/pictures"
ln -s "$PWD/docs/PROMISES.md" "$work/docs/PROMISES.md" && ln -s "$PWD/docs/lessons/1_store_that_travels.md" "$work/docs/lessons"
refuses() { # sed's words, what the line names
  sed "$1" docs/lessons/3_put_that_lost.md >"$work/docs/lessons/3_put_that_lost.md"
  ! quoted "$work/docs/lessons/3_put_that_lost.md" && [ "$(wc -l <"$work/faults")" -eq 1 ] && grep -qF -- "$2" "$work/faults"
}
is_so "a lesson as it stands is not refused there either" quoted docs/lessons/3_put_that_lost.md
is_so "a changed line of a block is found" refuses 's/^14 deliver 4: homebusy$/14 deliver 4: held/' '14 deliver 4: held'
is_so "a gap that isn't shown is found" refuses '0,/^\.\.\.$/{//d;}' '13 deliver 5: delivered'
is_so "a changed line within the text is found" refuses 's/22 evict 0 64: notcached\(.:\)/22 evict 0 64: evicted\1/' '22 evict 0 64: evicted'
is_so "a picture that isn't there is found" refuses 's/put_first.svg/put_last.svg/' 'put_last.svg'
is_so "a command of another kind is found and not done" refuses 's/^\$ \.\/safetynet dis .*/$ touch touched/' 'touch touched'
is_so "a lesson with two questions is found" refuses '0,/<details><summary>/{s/<details><summary>/<details>/;}' 'questions'

told lessons
