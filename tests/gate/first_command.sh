#!/usr/bin/env bash
# Shows when ./safetynet builds and what it runs, with a stand-in for rt: a program that isn't built of the present text, with
# every proof passed, is never run as a proved one, and an answer that comes before the proof says so and is held against the proved
# one. Then holds the pages that --help and --version give against the program's own answers.
set -u
cd "$(dirname "$0")/../.." || exit 1
top=$PWD
. tests/gate/lib/checks.sh
. tests/gate/lib/small_repository.sh
export CALLS=$work/calls FAILS=$work/fails
repo=$work/repo
small_repository "$work/bin" "$repo"
libraries=$repo/crates/safetynet_program/out/rlib

PATH_TO=$work/bin:$PATH

# One call of ./safetynet: its status, what it wrote on standard output, and whether rt was called (0 or 1). Words that ask for
# neither a page nor a way to build are those of a call that shows no answer before the proof.
check() { # what it shows, status, output, is_called, words..
  local what=$1 status=$2 output=$3 is_called=$4 found called=0
  shift 4
  [ "${asks_page-}" ] || [[ ${1-} == --* ]] || set -- --proved "$@"
  : >"$CALLS"
  (cd "$repo" && PATH=$PATH_TO ./safetynet "$@") >"$work/out" 2>"$work/err"
  found=$?
  [ ! -s "$CALLS" ] || called=1
  if [ "$found" = "$status" ] && [ "$(cat "$work/out")" = "$output" ] && [ "$called" = "$is_called" ]; then
    passed=$((passed + 1))
  else
    echo "./safetynet: $what: status $found and not $status, rt called $called and not $is_called, or it wrote: $(head -c 200 "$work/out")" >&2
    failed=$((failed + 1))
  fi
}
calls() { # the crates that the last call proved, by name
  grep -o '^[a-z_]* build' "$CALLS" | cut -d ' ' -f 1 | sort
}
change() { # crate, text
  sleep 0.05
  echo "$2" >"$repo/crates/$1/src/lib.rt"
}

echo left >"$FAILS"
check "no program is run where a crate isn't proved" 125 "" 1 replay a
is_so "the crate is named" grep -q "left is not proved" "$work/err"
rm -r "$repo"/crates/*/out
: >"$FAILS"
check "the first call builds, and gives words and status on" 7 "first:replay a b" 1 replay a "b"
is_so "each crate is proved once from nothing, after those below it, and what isn't needed isn't" \
  diff - <(sed "s/--jobs [0-9]*/--jobs N/; s/^left/right/; s:$libraries:LIBRARIES:; s:left.rlib:right.rlib:; s:$work:KIT:" "$CALLS" | sort) <<'END'
low build --jobs N --statements -o LIBRARIES/low.rlib
right build --jobs N --statements -o LIBRARIES/right.rlib
right build --jobs N --statements -o LIBRARIES/right.rlib
safetynet_program build --jobs N --toolchain KIT/toolchain --backend llvm -o out/safetynet_program.o
safetynet_program out/safetynet_program.o out/safetynet_program
END
is_so "the lowest first" grep -q "^low" <(head -n 1 "$CALLS")
is_so "the libraries stand by themselves" diff - <(ls "$libraries") <<'END'
left.of
left.rlib
low.of
low.rlib
right.of
right.rlib
safetynet_program.of
END
is_so "and what rt keeps for itself isn't touched" [ "$(echo "$repo"/crates/*/out)" = "$repo/crates/safetynet_program/out" ]
check "the second call builds nothing" 7 "first:x" 0 x
change aside "second"
check "a crate that the program doesn't stand on changes nothing" 7 "first:x" 0 x
touch "$repo/crates/low/src/lib.rt"
check "a text that was only touched is built already" 7 "first:x" 0 x
is_so "which is known without a build" diff - "$work/err" <<<"report of x"
change right "second"
check "of a text that changed" 7 "first:x" 1 x
is_so "the crate and those above it are proved" diff - <(calls) <<'END'
right
safetynet_program
END
change low "second"
for crate in low right safetynet_program; do
  echo "$crate" >"$FAILS"
  check "no old program is run where $crate isn't proved" 125 "" 1 x
  check "nor at the next call" 125 "" 1 x
done
: >"$FAILS"
check "once all is proved, the new program is run" 7 "second:x" 1 x
is_so "where each crate that was proved before isn't proved again" diff - <(calls) <<<"safetynet_program"
for while in left safetynet_program; do
  change low "third, $while"
  echo "meanwhile $while" >"$FAILS.$while"
  check "a change of a crate during the proof of $while" 7 "third, $while:x" 1 x
  rm "$FAILS.$while"
  check "is seen by the next call" 7 "third, $while:x" 1 x
  is_so "which proves that crate and those above it" diff - <(calls) <<'END'
left
safetynet_program
END
  check "and by no further one" 7 "third, $while:x" 0 x
done
cp "$repo/crates/left/src/lib.rt" "$FAILS.left"
change low "third"
check "a crate that was written anew during its proof, as it was" 7 "third:x" 1 x
rm "$FAILS.left"
check "is proved again" 7 "third:x" 1 x
is_so "and those above it, where another library came of it" diff - <(calls) <<<"left"
rm "$repo/crates/left/src/lib.rt"
check "a file that is gone is a change" 7 "third:x" 1 x
echo "left over" >"$libraries/right.rlib/format"
change left "third"
check "a library that isn't the one that was built" 7 "third:x" 1 x
is_so "is built anew" diff - <(calls) <<'END'
left
right
safetynet_program
END
echo "another toolchain" >"$work/WHAT"
change left "fourth"
check "with another toolchain" 7 "third:x" 1 x
is_so "all is proved again" [ "$(calls | wc -l)" = 4 ]
change right "a net"
check "a text that reaches beyond the handles that are allowed isn't built" 125 "" 0 x
is_so "which is said" grep -q "right names what only the handle Net reaches" "$work/err"
change right "threads"
check "nor one whose proof has them" 125 "" 1 x
echo "Handles allowed: Threads, Wait." >"$repo/HANDLES"
check "those that are allowed are" 7 "third:x" 1 x
change low "fourth"
check "--build builds" 0 "" 1 --build
check "and then has nothing to do" 0 "" 0 --build
is_so "what stands beside the program, and which toolchain built it" diff - <(ls -A "$repo/build" && cat "$repo/build/toolchain") <<'END'
absent
current
safetynet
sum
toolchain
another toolchain
END
echo "of an older date" >"$work/older"
touch -d "1 hour ago" "$work/older"
cp -p "$work/older" "$repo/crates/low/src/lib.rt"
check "a text that bears an older date is a change" 7 "of an older date:x" 1 x
check "at the first call alone" 7 "of an older date:x" 0 x
mkdir "$repo/crates/low/specs"
echo "a definition" >"$repo/crates/low/specs/Lib.antt"
check "so is a part of a crate that wasn't there" 7 "of an older date:x" 1 x
is_so "which is proved again" diff - <(calls) <<<"low"
rm -r "$repo/crates/low/specs"
check "and one that is gone" 7 "of an older date:x" 1 x
change low "two at once"
: >"$CALLS"
for call in one another; do
  (cd "$repo" && PATH=$PATH_TO ./safetynet --proved "$call") >"$work/$call" 2>/dev/null &
done
wait
is_so "two calls at once both come to their ends" diff - <(cat "$work/one" "$work/another") <<'END'
two at once:one
two at once:another
END
is_so "and each crate is proved once" diff - <(calls) <<'END'
left
low
right
safetynet_program
END
change low "untold"
(cd "$repo" && PATH=$PATH_TO ./safetynet --proved x) >"$work/out" 2>/dev/full
is_so "where nothing can be said nothing is run" [ "$?:$(cat "$work/out")" = 125: ]
# Root may write everywhere, so a test as root gives that up.
as_user=()
[ "$(id -u)" != 0 ] || as_user=(setpriv "--bounding-set=-dac_override" --)
if has "${as_user[0]-env}" "a checkout that can't be written" && ${as_user[@]+"${as_user[@]}"} true 2>/dev/null; then
  in_read_only() {
    chmod -R a-w "$repo"
    (cd "$repo" && PATH=$PATH_TO ${as_user[@]+"${as_user[@]}"} ./safetynet --proved x) >"$work/out" 2>"$work/err"
    local status=$?
    chmod -R u+w "$repo"
    return "$status"
  }
  in_read_only
  is_so "in a checkout that can't be written nothing is built" [ "$?:$(cat "$work/out")" = 125: ]
  is_so "which is told in a line" grep -qx "# no program was built or run: $repo/build/[a-z.]*: Permission denied" "$work/err"
  check "with the right to write" 7 "untold:x" 1 x
  in_read_only
  is_so "what was built there is run" [ "$?:$(cat "$work/out")" = "7:untold:x" ]
fi
change low "fourth"
check "the text for what comes next" 7 "fourth:x" 1 x

# An answer before the proof: the same call, without a word that says how.
early() { # what it shows, status, output, words..
  local what=$1 status=$2 output=$3 found
  shift 3
  : >"$CALLS"
  (cd "$repo" && PATH=$PATH_TO ./safetynet "$@") >"$work/out" 2>"$work/err"
  found=$?
  is_so "$what: status $found and not $status, or it wrote: $(head -c 200 "$work/out")" [ "$found:$(cat "$work/out")" = "$status:$output" ]
}
# The same where the answer before the proof comes first, on however slow a machine.
answers_first() { # what it shows, status, output, words..
  : >"$FAILS.first"
  early "$@"
  rm "$FAILS.first"
}
says() { # what it shows, a line of standard error
  is_so "$1" grep -q "^$2" "$work/err"
}
check "the words of an unproved run come through, and its console and status" 7 "fourth:replay x y" 1 --unproved replay x y
is_so "its report comes after a line that nothing is proved, and none of the toolchain's lines" diff - "$work/err" <<'END'
# nothing of this run is proved
report of replay x y
END
early "a program that is built says nothing beside its answer" 7 "fourth:replay x" replay x
is_so "nor does it call rt" [ ! -s "$CALLS" ]
is_so "and its report is its own alone" diff - "$work/err" <<<"report of replay x"
change low "sixth"
answers_first "before a proof the same source answers" 7 "sixth:replay x" replay x
is_so "between two lines, and the proved program then says that it is so" diff - <(sed 's/about [0-9]* min/about N min/; /^# \(building\|built\|proved [0-9]\)/d' "$work/err") <<'END'
# before the proof:
report of replay x
# this answer came before the proof; the proof goes on (about N minutes; what is proved is kept if you stop it)
# proved: the same answer
END
lanes=$(cd "$repo" && python3 -c 'import build; print(build.lanes())')
is_so "which had two processors for itself till then" grep -q "^low build --jobs $((lanes > 6 ? 4 : lanes > 3 ? lanes - 2 : 1)) " "$CALLS"
early "from then on nothing is said" 7 "sixth:replay x" replay x
is_so "but the report" diff - "$work/err" <<<"report of replay x"
change low "seventh"
printf other >"$FAILS.try"
answers_first "an answer that isn't the proved one" 125 "other:replay x" replay x
says "is told" "# proved: another answer, with status 7"
change low "eighth"
printf none >"$FAILS.try"
early "where there is no answer before the proof, the proved one comes alone" 7 "eighth:replay x" replay x
says "which is said, with the reason" "# no answer before the proof: checked: no-answer: more than 1 MiB"
check "an unproved run without an answer" 125 "" 1 --unproved replay x
says "says so too" "# rt try gave no answer: checked: no-answer: more than 1 MiB"
change low "eighth again"
rm "$FAILS.try"
: >"$FAILS.first"
(cd "$repo" && PATH=$PATH_TO ./safetynet replay x) >/dev/full 2>"$work/err"
is_so "an answer that can't be written is left to the proved program" [ "$?" = 7 ]
rm "$FAILS.first"
says "which is said" "# no answer before the proof: it can't be written (No space left on device)"
printf foretold >"$FAILS.try"
check "what rt try says of a later check" 7 "eighth again:x" 1 --unproved x
is_so "isn't in the report" diff - "$work/err" <<'END'
# nothing of this run is proved
report of x
END
rm "$FAILS.try"
echo "step 0 step 1" >"$work/lines"
(cd "$repo" && PATH=$PATH_TO ./safetynet --unproved drive x <"$work/lines") >"$work/out" 2>"$work/err"
is_so "an unproved drive reads its lines" diff - "$work/out" <<<"eighth again:drive x step 0 step 1"
change low "ninth"
printf slow >"$FAILS.try"
early "a proof that ends first is not waited for" 7 "ninth:replay x" replay x
is_so "and no rt is left behind" bash -c "! pgrep -f '$work/[b]in/rt try' >/dev/null"
rm "$FAILS.try"
for words in "run a" "run --nodes 2 a" "run --nodes=3 a" "monitor a" "monitor --nodes 1 a"; do
  change low "tenth, $words"
  early "threads have no answer that could be compared" 7 "tenth, $words:$words" $words
  says "which is said" "# no answer before the proof: threads decide"
done
change low "eleventh"
answers_first "but a run on one node has one" 7 "eleventh:run --nodes 1 a" run --nodes 1 a
says "that is compared" "# proved: the same answer"
change low "eleventh again"
answers_first "and so has a run in an order" 7 "eleventh again:run --order drawn a" run --order drawn a
says "which is compared too" "# proved: the same answer"
change low "twelfth"
mkfifo "$repo/once"
early "what can be read once only is not read before the proof" 7 "twelfth:check once" check once
says "which is said" "# no answer before the proof: once is no plain file"
check "nor without one" 125 "" 0 --unproved check once
change low "twelfth again"
early "a name that rt try has for a file of its own" 7 "twelfth again:replay program" replay program
says "has no answer that could be compared" "# no answer before the proof: there is no file program, and where rt try runs the program there is one"
mkdir "$repo/save"
change low "twelfth, saved"
answers_first "a folder that is called as a command" 7 "twelfth, saved:save x" save x
says "isn't taken for a file" "# proved: the same answer"
change low "twelfth, refused"
: >"$FAILS.why"
for file in "$repo/crates.txt" ../repo/crates.txt save/../crates.txt; do
  change low "twelfth, $file"
  answers_first "a file in another folder that is refused" 4 "twelfth, $file" check "$file"
  is_so "has its name in both reports" diff - <(grep -v "^# \(building\|built\|proved [0-9]\|this\|before\)" "$work/err") <<END
# why: $file:3: no event
# proved: the same answer
END
done
rm "$FAILS.why"
change low "thirteenth"
echo right >"$FAILS"
change right "thirteenth"
answers_first "an answer before a proof that fails is shown, and no other" 125 "thirteenth:replay x" replay x
says "with the crate that isn't proved" "# the program was not built: right is not proved"
: >"$FAILS"
mkdir "$repo/a folder"
echo 1 >"$repo/a folder/a file"
(cd "$repo" && PATH=$PATH_TO ./safetynet --unproved replay "a folder/a file" ../repo/crates.txt) >"$work/out" 2>"$work/err"
is_so "files keep their names where they can, also with blanks" grep -qF -- \
  "--data a folder/a file=$repo/a folder/a file --data given/2=$repo/crates.txt -- replay a folder/a file given/2" "$CALLS"
change low "fourth"
mv "$repo" "$work/a repo"
repo="$work/a repo"
libraries=$repo/crates/safetynet_program/out/rlib
early "all of it also stands in a folder with a blank" 7 "fourth:replay x" replay x
mv "$repo" "$work/repo"
repo=$work/repo
libraries=$repo/crates/safetynet_program/out/rlib

# What the gate has left, with a toolchain that keeps nothing: here all three libraries. The program is proved again in any case.
gate_has_run() {
  local crate
  for crate in low left right; do
    rm -rf "$repo/crates/$crate/out/rlib"
    mkdir -p "$repo/crates/$crate/out/rlib"
    cp -r "$work/left/$crate.rlib" "$repo/crates/$crate/out/rlib"
  done
}
mkdir "$work/left" "$repo/.git"
check "the libraries of the text that the gate is to prove" 7 "fourth:x" 0 x
cp -r "$libraries"/*.rlib "$work/left"
forget() {
  rm -rf "$libraries" "$repo/build"
}
# What it shows, and the crates that are proved again.
left_again() {
  forget
  check "$1" 7 "fourth:x" 1 x
  shift
  is_so "where these are proved and no others" diff - <(calls) <<<"$(printf '%s\n' "$@")"
}
sleep 0.05
: >"$repo/.git/rt-ci.lock"
sleep 0.05
gate_has_run
left_again "what a run of the gate has left of the present text" safetynet_program
touch "$repo/crates/left/out/rlib/stamp"
left_again "a library that another command of rt has built since" left safetynet_program
gate_has_run
rm -r "$repo/crates/left/out/rlib/left.rlib"
left_again "one that isn't there" left safetynet_program
gate_has_run
touch -d "1 hour ago" "$repo/crates/right/out/rlib/right.rlib/format"
left_again "one from before the gate's last run" right safetynet_program
gate_has_run
touch "$repo/crates/right/src/lib.rt"
left_again "of a text that was touched since the run began" right safetynet_program
touch "$repo/crates/low/src/lib.rt"
left_again "and of one whose lower library is of such a text" left low right safetynet_program
: >"$repo/.git/rt-ci.lock"
sleep 0.05
gate_has_run
left_again "the next run" safetynet_program
exec {held}<"$repo/.git/rt-ci.lock"
python3 -c 'import fcntl, sys; fcntl.flock(int(sys.argv[1]), fcntl.LOCK_EX)' "$held"
left_again "while a run of the gate goes on" left low right safetynet_program
exec {held}<&-
sleep 0.05
touch "$repo/crates.txt"
left_again "where another line of crates.txt may stand" left low right safetynet_program
rm -r "$repo/.git" "$repo"/crates/{low,left,right}/out

# What the gate has kept, with a toolchain that keeps what it proved: here two of the three libraries, and another text of the third.
mkdir "$work/kept"
for crate in low left; do
  cp -r "$libraries/$crate.rlib" "$work/kept/proof-$crate-$(cat "$libraries/$crate.rlib/format")"
done
mkdir "$work/kept/proof-right-other"
change right "as it was"
check "the crates of other texts" 7 "fourth:x" 1 x
change low "other"
check "are all built of those" 7 "other:x" 1 x
change low "fourth"
check "what the gate has proved of a text" 7 "fourth:x" 1 x
is_so "isn't proved again, as the rest is" diff - <(calls) <<'END'
right
safetynet_program
END

# A build that ends by a signal, in the proof of one crate.
for crate in low safetynet_program; do
  change low "fifth, $crate"
  hang=$FAILS.hang.$crate
  touch "$hang"
  (cd "$repo" && PATH=$work/bin:$PATH exec ./safetynet --proved x) >"$work/out" 2>"$work/err" &
  for _ in {1..600}; do
    [ -s "$hang" ] && break
    sleep 0.1
  done
  kill "$!"
  wait "$!"
  is_so "a build that was interrupted runs nothing" [ ! -s "$work/out" ]
  is_so "and leaves no rt behind" bash -c "! kill -0 $(cat "$hang") 2>/dev/null"
  rm "$hang"
  check "the next call builds" 7 "fifth, $crate:x" 1 x
done
is_so "what wasn't proved" diff - <(calls) <<<"safetynet_program"

# The same by other signals. One that kills what builds leaves nothing that goes on either.
gone() { # a process; one that has ended may still be there for whoever is to ask about it
  local _
  for _ in {1..300}; do
    { [ ! -e "/proc/$1" ] || grep -q "^State:.Z" "/proc/$1/status"; } 2>/dev/null && return
    sleep 0.1
  done
  false
}
nobody_tries() { # nor does anybody soon
  local _
  for _ in {1..300}; do
    pgrep -f "$work/[b]in/rt try" >/dev/null || return 0
    sleep 0.1
  done
  false
}
# Calls ./safetynet and ends it by a signal once a file has something.
ended_by() { # signal, the file, words..
  local signal=$1 file=$2 caller
  shift 2
  # a shell's own job in the background ignores some of them
  (cd "$repo" && PATH=$work/bin:$PATH exec python3 -c 'import os, signal, sys
for it in (signal.SIGHUP, signal.SIGINT):
    signal.signal(it, signal.SIG_DFL)
os.execv("./safetynet", sys.argv)' "$@") >"$work/out" 2>"$work/err" &
  caller=$!
  for _ in {1..600}; do
    [ -s "$file" ] && break
    sleep 0.1
  done
  kill -s "$signal" "$caller"
  # by who waits, that it was killed isn't said
  wait "$caller" 2>/dev/null
}
for ends in "INT 130" "HUP 129" "KILL 137"; do
  change low "fifth, $ends"
  hang=$FAILS.hang.low
  touch "$hang"
  ended_by "${ends% *}" "$hang" --proved x
  is_so "a build that ends by ${ends% *} says so by its status, and runs nothing" [ "$?:$(cat "$work/out")" = "${ends#* }:" ]
  is_so "and leaves no rt behind" gone "$(cat "$hang")"
  rm "$hang"
  check "the next call builds" 7 "fifth, $ends:x" 1 x
done
is_so "and what was left beside the program is gone" diff - <(ls -A "$repo/build") <<'END'
absent
current
safetynet
sum
toolchain
END
printf slow >"$FAILS.try"
for ends in TERM HUP KILL; do
  : >"$CALLS"
  ended_by "$ends" "$CALLS" --unproved x
  is_so "an unproved run that ends by $ends leaves no rt behind" nobody_tries
done
rm "$FAILS.try"

# Without rt, and without a build.
rm -rf "$repo"/crates/*/out "$repo/build" "$work/bin"/*
for tool in bash env dirname readlink cat find; do ln -s "$(command -v "$tool")" "$work/bin/$tool"; done
PATH_TO=$work/bin
pages=$top/crates/safetynet_program/pages asks_page=1
is_so "--help begins with the overview" diff "$pages/overview.txt" <(head -n "$(wc -l <"$pages/overview.txt")" <(./safetynet --help))
for words in '' --help -h help; do
  # Each word is one of its own.
  check "the overview that '$words' asks for needs no build" 0 "$(./safetynet --help)" 0 $words
done
page_calls=("events=help events" "formats=help formats" "statuses=help statuses" "version=--version")
for command in replay drive roll save resume run monitor check judge demo asm dis; do
  page_calls+=("$command=$command --help" "$command=$command -h" "$command=$command help" "$command=help $command" "version=$command --version")
done
for call in "${page_calls[@]}"; do
  check "the page that '${call#*=}' asks for needs no build" 0 "$(cat "$pages/${call%%=*}.txt")" 0 ${call#*=}
done
asks_page=
check "all else is refused" 125 "" 0 x
check "a call for a page with another word too" 125 "" 0 replay --help x
check "a page of no command" 125 "" 0 help fly
check "and says why" 125 "" 0 --build
is_so "rt is named" grep -q "rt is not on the path" "$work/err"
printf '#!/bin/sh\n' >"$work/bin/rt"
chmod +x "$work/bin/rt"
check "nor is anything built without Python" 125 "" 0 --build
is_so "which is named" grep -q "python3 is not on the path" "$work/err"
check "nor answered" 125 "" 0 --unproved x

# The same with rt itself: a library, and a program that puts what it gives.
small=$work/small
mkdir -p "$small"/crates/{given,puts}/src
cp build.py early.py "$small"
printf '%s\n' 'given:' 'puts: given' >"$small/crates.txt"
echo "Handles allowed: none." >"$small/HANDLES"
cat >"$small/crates/given/src/lib.rt" <<'END'
#![tactic(auto)]

ghost use Rattle.std.specs.Prelude.{◌≡◌};

pub fn given(x: usize) -> usize
    ensures { result ≡ x }
{
    x / 2
}
END
cat >"$small/crates/puts/src/main.rt" <<'END'
#![tactic(auto)]

use std::io;

fn main(rt: HostRuntime) -> io::Result<()> {
    let number = given::given(7);
    println!(rt; "{number}")?;
    Ok(())
}
END
small_build() { # what it shows, status, output, how
  local status
  python3 "$small/build.py" puts "$small/build" "${4-proved}" >"$work/out" 2>"$work/err"
  status=$?
  is_so "with rt itself, $1: status $status, $(tail -n 2 "$work/err")" [ "$status:$(cat "$work/out")" = "$2:$3" ]
}
small_build "a library that isn't proved isn't built" 125 ""
is_so "and is named" grep -q "given is not proved" "$work/err"
sed -i 's: / 2::' "$small/crates/given/src/lib.rt"
small_build "the same source answers beside its proof, and what is proved gives the same" 0 7 both
# On a busy machine the proof may end first. Then once more, where it waits for the program's folder until the answer before it is there.
if ! grep -q "^# this answer came before the proof" "$work/err"; then
  echo "// another text" >>"$small/crates/given/src/lib.rt"
  exec {held}<"$small/crates/puts"
  lock() { # how
    python3 -c 'import fcntl, sys; fcntl.flock(int(sys.argv[1]), getattr(fcntl, sys.argv[2]))' "$held" "$1"
  }
  lock LOCK_EX
  : >"$work/err"
  (
    for _ in {1..3000}; do
      grep -q "before the proof" "$work/err" && break
      sleep 0.1
    done
    lock LOCK_UN
  ) &
  small_build "the same source answers before its proof, and what is proved then gives the same" 0 7 both
  wait
  exec {held}<&-
fi
says "which is said" "# this answer came before the proof"
says "and compared" "# proved: the same answer"
small_build "what is proved is run" 0 7
echo "use std::net::TcpStream;" >>"$small/crates/given/src/lib.rt"
small_build "a library beyond the handles isn't built" 125 ""

# The pages are what the program itself says.
./safetynet --build || { echo "the program was not built" >&2; exit 1; }
odd=$'a "b"\\c\n~\xc3\xa9'
is_so "a name is shown before the proof as the program shows it" diff \
  <(python3 -c 'import sys; sys.path.insert(0, "."); from early import shown_name; print("# why: %s: no such file" % shown_name(sys.argv[1]).decode())' "$odd") \
  <(build/safetynet dis "$odd" 2>&1 | grep "^# why: ")
for call in overview= overview=--help overview=-h overview=help "${page_calls[@]}"; do
  is_so "the page ${call%%=*} is what the program says to '${call#*=}'" diff "$pages/${call%%=*}.txt" <(build/safetynet ${call#*=})
done
is_so "the overview has at most 40 lines" [ "$(wc -l <"$pages/overview.txt")" -le 40 ]
for page in "$pages"/*.txt; do
  is_so "$(basename "$page") has at most 60 lines of 81 letters" awk 'length > 81 { exit 1 } END { exit NR > 60 }' "$page"
done

if has mypy "checking the types of what builds"; then
  is_so "mypy has nothing to say of it" mypy_says build.py early.py
fi
if has shellcheck "looking through this script"; then
  is_so "shellcheck has nothing to say of it" is_silent shellcheck -x -e SC2086,SC2115,SC2254 safetynet tests/gate/first_command.sh
fi

told "first command"
