#!/usr/bin/env bash
# Shows why each kind of call ends as it does: one line `# why: ` above the line that names the status, and nothing else of what is
# refused. What can't be read twice, as a pipe, makes the line say less. crates/texts_tests, words_tests and
# safetynet_main_tests have a row for each cause; here the files and streams are real.
set -u
cd "$(dirname "$0")/../.." || exit 1
. tests/gate/lib/checks.sh
./safetynet --build || { echo "the program was not built" >&2; exit 1; }

program=$PWD/build/safetynet first=$PWD/examples/first/a.hex elf=$PWD/examples/first/a.elf count=$PWD/examples/shared/count.hex
echoes=$PWD/examples/shared/echo.hex saves=$PWD/examples/save
cd "$work" || exit 1

# The call ends so, and its report ends with these two lines; why stands in it once.
ends() { # status, its words, why, the call's words
  local want=$1 words=$2 why=$3 status
  shift 3
  "$program" "$@" >console 2>report
  status=$?
  is_so "$* ends with $want" [ "$status" -eq "$want" ]
  is_so "$* says why" diff <(printf '%s\n' "# why: $why" "# safetynet: $words") <(tail -n 2 report)
  is_so "$* says it once" [ "$(grep -c '^# why: ' report)" -eq 1 ]
}
# The same of a call that puts nothing else.
says() { # status, its words, why, the call's words
  ends "$@"
  is_so "${*:4} puts nothing else" [ ! -s console ] && is_so "${*:4} reports nothing else" [ "$(wc -l <report)" -eq 2 ]
}

# Words.
says 1 usage 'fly: there is no such command; see safetynet --help' fly
says 1 usage 'reply: there is no such command; did you mean replay?' reply
says 1 usage '--nodes 17: a machine has 1 to 16 nodes' replay --nodes 17 "$first" a.script
says 1 usage '--node: replay has no such option; did you mean --nodes?' replay --node 2 "$first" a.script
says 1 usage '--order slow: an order is threads, round or drawn' run --order slow "$first"
says 1 usage '--trace and --journal don'\''t stand together' run --trace --journal "$first"
says 1 usage '--statistics and --states don'\''t stand together' replay --statistics --states "$first" a.script
says 1 usage '--accesses and --statistics don'\''t stand together' run --accesses --statistics "$first"
says 1 usage '--seeds stands with --order round or --order drawn alone' run --seeds 1-2 "$first"
printf 'step 0\nstep 0\n' >two.script
says 1 usage '--only 2-3: the script has 2 events' replay --states --only 2-3 "$first" two.script
says 1 usage '--only 1-1: the script has 0 events' replay --states --only 1-1 "$first" /dev/null
says 1 usage 'a.script: drive takes no more files; see safetynet drive --help' drive "$first" a.script
says 1 usage 'replay: SCRIPT is lacking; see safetynet replay --help' replay "$first"
says 1 usage 'a word isn'\''t UTF-8' replay $'\xff'

says 1 usage '--trace: monitor has no such option; see safetynet monitor --help' monitor --trace "$first"

# Files that can't be read.
mkdir folder
says 2 store 'missing.hex: no such file' dis missing.hex
says 2 store 'folder: it is a directory' dis folder
says 2 store 'missing.hex: no such file' drive missing.hex
says 2 store 'missing.script: no such file' replay "$first" missing.script
says 2 store 'missing.control: no such file' roll "$first" /dev/null missing.control
says 2 store 'a\x0ab: no such file' dis $'a\nb'

# Programs.
printf '04100513\n\n0410051\n' >count.hex
says 3 'program badhexline' 'count.hex:3: "0410051" isn'\''t eight hexadecimal digits' dis count.hex
printf '# put out\n\nstart:\naddi x5, x0, 7\n' >text.hex
says 3 'program badhexline' 'text.hex:3: this is assembler; safetynet asm turns it into words' dis text.hex
head -c 40 "$elf" >short.elf
says 3 'program truncated' 'short.elf: the file ends after 40 bytes, and 52 are needed' dis short.elf
{ head -c 4 "$elf"; printf '\2'; tail -c +6 "$elf"; } >class.elf
says 3 'program wrongfield' 'class.elf: the class is 00000002, and a program for this machine has 00000001' dis class.elf

# Scripts, control files and traces.
printf 'step 0\n# a comment\nstepp 0\n' >wrong.script
says 4 'script badline' 'wrong.script:3: this line is no event: "stepp 0"; did you mean step?' replay "$first" wrong.script
printf 'step 0 \n' >blank.script
says 4 'script badline' 'blank.script:1: this line is no event: "step 0 "; a blank stands at its end' replay "$first" blank.script
printf 'step 2\n' >node.script
says 4 'script outofrange' 'node.script:1: a machine of 2 nodes has no such node, block or switch: "step 2"' replay --nodes 2 "$first" node.script
printf 'order 0\nordr 1\n' >wrong.control
says 4 'script badline' 'wrong.control:2: this line is no control: "ordr 1"; did you mean order?' roll "$first" /dev/null wrong.control
says 4 'script badline' 'wrong.script:3: this line is no event: "stepp 0"; did you mean step?' roll "$first" wrong.script wrong.control
letters=$saves/letters.hex saved=$saves/once.save
says 12 'save notlegal' "$saves/spoiled.save: this program doesn't do the instruction of \`rec\` line 11 after those before it" resume "$letters" "$saves/spoiled.save" /dev/null
says 12 'save setfull' "$saves/crowded.save:5: the set of that block has no place left in the cache of that node: \"owner 65 0\"" resume "$letters" "$saves/crowded.save" /dev/null
sed '$d' "$saved" >short.save
says 12 'save badline' "short.save:$(wc -l <"$saved"): the file ends here, and not with the line \`end\` and its LF" resume "$letters" short.save /dev/null
printf '%s' "$(cat "$saved")" >open.save
says 12 'save badline' "open.save:$(wc -l <"$saved"): the file ends here, and not with the line \`end\` and its LF" resume "$letters" open.save /dev/null
sed 's/$/\r/' "$saved" >return.save
says 12 'save badline' 'return.save:1: no line of a save file that may stand here: "safetynet-save 1\x0d"' resume "$letters" return.save /dev/null
sed '4s/.*/owner 64 2/' "$saved" >owner.save
says 12 'save outofrange' 'owner.save:4: a number that no saved machine has, or a line that is one too many or out of its order: "owner 64 2"' resume "$letters" owner.save /dev/null
sed '4s/.*/dead a1\ndead b1/' "$saved" >dead.save
says 12 'save cutoff' 'dead.save: nodes 0 and 1 are cut off: no living switches join them' resume "$letters" dead.save /dev/null
printf 'safetynet-save 1\nconfig 1 16 4 256\nmarks 1 1 4\ngiven 0 42\nrec 0 00000000 0\nrec 0 00000000 0 41\nend\n' >unread.save
says 12 'save unread' 'unread.save: node 0 has read bytes that its `given` lines don'\''t give from the first on' resume "$echoes" unread.save /dev/null
says 4 'script outofrange' 'node.script:1: a machine of 2 nodes has no such node, block or switch: "step 2"' resume "$letters" "$saved" node.script
says 4 'script badline' 'wrong.script:3: this line is no event: "stepp 0"; did you mean step?' save "$first" wrong.script
printf '0 00000000 0\n' >a.trace
says 4 'script badline' 'a.trace:1: this line is no event: "0 00000000 0"; it is a trace'\''s, which check takes' replay "$first" a.trace
{ printf 'step '; head -c 1000 /dev/zero | tr '\0' '7'; echo; } >long.script
says 4 'script badline' "long.script:1: this line is no event: \"step $(head -c 55 /dev/zero | tr '\0' '7')\".." replay "$first" long.script
printf '0 rr 80001000 4 00000000\n' >word.accesses
says 4 'script badline' 'word.accesses:1: this line is no access: "0 rr 80001000 4 00000000"; did you mean r?' judge word.accesses
printf '16 r 80001000 4 00000000\n' >core.accesses
says 4 'script outofrange' 'core.accesses:1: a machine of 16 nodes has no such core or address: "16 r 80001000 4 00000000"' judge core.accesses
printf '# a\n0 00000000 0\n0 00000000 0\n0 00000001 0\n' >one.trace
ends 9 'refused 3' 'record 3 (line 4): core 0 saw 00000001, and the memory has 00000000' check "$count" one.trace
printf '# a\ninit 80001000 00000007\n0 w 80001000 4 0000002a\n1 r 80001000 4 00000007\n' >stale.accesses
ends 9 'refused 2' 'access 2 (line 4): core 1 read 00000007, and memory has 0000002a, which access 1 wrote last' judge stale.accesses
printf '1 sc 80001000 4 00000007\n' >sc.accesses
ends 9 'refused 1' 'access 1 (line 1): core 1 has no reservation' judge sc.accesses

# What comes through a pipe can't be shown once more, and isn't waited for.
mkfifo pipe
printf 'step 0\nstepp 0\n' >pipe &
says 4 'script badline' 'pipe:2: this line is no event' replay "$first" pipe
wait

# Assembler.
printf 'addi x5, x0, 1\n\nli x5, 7\n' >spin.s
says 13 'asm badline' 'spin.s:3: li is a pseudoinstruction, which this assembler leaves out; write addi x5, x0, 7' asm spin.s

# Runs.
printf '00000000\n' >trap.hex
ends 10 'trapped 0 illegal' 'core 0 trapped: its next word is no instruction' run --nodes 1 trap.hex
printf '0000006f\n' >spin.hex
ends 6 budget 'the run has 50 events, which is its budget, and its cores haven'\''t all ended' run --nodes 1 --budget 50 spin.hex
ends 8 'cutoff 0 1' 'nodes 0 and 1 are cut off: no living switches join them' run --nodes 2 --kill a0@0 "$count"
ends 6 budget 'the run has 50 events, which is its budget, and its cores haven'\''t all ended' monitor --nodes 1 --budget 50 spin.hex
ends 10 'trapped 0 illegal' 'core 0 trapped: its next word is no instruction' monitor --nodes 1 trap.hex

# What the system doesn't give.
"$program" dis "$first" >/dev/full 2>report
is_so "a full console is named" diff <(printf '%s\n' '# why: not all of the output could be written' '# safetynet: sink') report
"$program" --help >/dev/full 2>report
is_so "and so of a page" diff <(printf '%s\n' '# why: not all of the output could be written' '# safetynet: sink') report
"$program" demo 10 >console 2>report
is_so "what is done says nothing" [ "$(grep -c '^# ' report)" -eq 0 ]

# Notes: a terminal gets them behind the report, and a file gets none.
on_terminal() { # whether it has the console too, the words of a call
  python3 - "$1" "$program" "${@:2}" <<'END'
import os, pty, subprocess, sys

master, slave = pty.openpty()
console = slave if sys.argv[1] == "both" else subprocess.DEVNULL
done = subprocess.run(sys.argv[2:], stdin=subprocess.DEVNULL, stdout=console, stderr=slave, check=False)
os.close(slave)
report = b""
while True:
    try:
        part = os.read(master, 65536)
    except OSError:
        break
    if not part:
        break
    report += part
sys.stdout.buffer.write(report.replace(b"\r\n", b"\n"))
sys.exit(done.returncode)
END
}
noted() { # what is noted, the words of a replay
  local what=$1
  shift
  on_terminal report replay "$@" >shown
  is_so "$*, on a terminal, is done" [ $? -eq 0 ]
  "$program" replay "$@" >console 2>report
  is_so "$*, on a terminal, notes $what" diff <(cat report; [ -z "$what" ] || printf '%s\n' "$what") shown
}
printf 'step 0\ndeliver 6\nvalidate\n' >guess.script
noted '# note: 2 of 3 events were refused, the first is 2 deliver 6: nomessage' --nodes 2 "$count" guess.script
noted $'# note: 2 of 3 events were refused, the first is 2 deliver 6: nomessage\n# note: --nodes wasn\'t given: 4 nodes' "$count" guess.script
printf 'step 0\nedge 3\n' >good.script
noted '' "$count" good.script
noted '' --nodes=8 "$count" good.script
printf 'step 0\n' >few.script
noted "# note: --nodes wasn't given: 4 nodes" --trace "$count" few.script

# A terminal that shows both: a line of the console that isn't ended is ended before the report goes on, and at the end.
apart() { # the console's bytes, the words of a call
  local bytes=$1
  shift
  on_terminal both "$@" >shown
  is_so "$*, on one terminal, is done" [ $? -eq 0 ]
  "$program" "$@" >console 2>report
  is_so "$* puts $bytes and no line's end" [ "$(cat console; echo .)" = "$bytes." ]
  is_so "$*, on one terminal, has it on a line of its own" diff <(cat report; echo "$bytes") <(grep -vx "$bytes" shown; grep -x "$bytes" shown)
}
apart A replay --nodes 1 "$first" "${first%.hex}.script"
apart A run --nodes 1 --interval 2 "$first"
lock=${first%first/a.hex}asm/lock.s
"$program" asm "$lock" >console 2>report
on_terminal both asm "$lock" >shown
is_so "a console that ends its lines stays as it is on a terminal" diff console shown

told reasons
