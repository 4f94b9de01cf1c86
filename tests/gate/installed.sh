#!/usr/bin/env bash
# Shows what ./safetynet install puts where, what it refuses and by which line, and that nothing is ever half installed: over a small
# repository, with a stand-in for rt and for the program. A part whose tool isn't there is skipped, and says so.
set -u
cd "$(dirname "$0")/../.." || exit 1
. tests/gate/lib/checks.sh
. tests/gate/lib/small_repository.sh
export CALLS=$work/calls FAILS=$work/fails PYTHONDONTWRITEBYTECODE=1 PYTHONHASHSEED=0 LC_ALL=C PATH=$work/bin:$PATH
top=$PWD repo="$work/a repo" prefix="$work/to here"
small_repository "$work/bin" "$repo"
: >"$FAILS"

# Calls ./safetynet from where the tests stand: its status, its one line on standard error, and whether rt was called (0 or 1).
installs() { # what it shows, status, the line, is_called, words..
  local what=$1 status=$2 line=$3 is_called=$4 found called=0
  shift 4
  : >"$CALLS"
  (cd "$work" && "${safetynet[@]}" "$@") >"$work/out" 2>"$work/err"
  found=$?
  [ ! -s "$CALLS" ] || called=1
  is_so "$what: status $found and not $status, rt called $called and not $is_called, or it said: $(head -c 300 "$work/err")" \
    [ "$found:$called:$(cat "$work/out")$(grep -v '^# \(building\|proved\|built\)' "$work/err")" = "$status:$is_called:$line" ]
}
refuses() { # what it shows, why, words..
  installs "$1" 1 "# install: $2; nothing was installed" 0 install "${@:3}"
}
done_line() { # prefix
  echo "# installed $1/bin/safetynet, and pages, manual page and completion in $1/share"
}
# All that stands in a folder: kinds and modes, and sums.
listing() { # folder
  (cd "$1" 2>/dev/null && find . -printf '%y %m %p %l\n' | sort && find . -type f -exec sha256sum {} + | sort -k 2)
}
as_it_was() { # what it shows
  is_so "$1" diff "$work/before" <(listing "$prefix")
}
# An attempt that may use files of at most so many KiB.
in_small_files() { # KiB, words..
  (ulimit -f "$1" && shift && exec "$@")
}
safetynet=("$repo/safetynet")

# What isn't there yet is built; where that fails nothing is installed.
one="name one PREFIX, the folder to install under"
refuses "no PREFIX" "$one"
refuses "two" "$one" one two
refuses "an empty one" "$one" ""
refuses "an option" "$one" --prefix=one
echo left >"$FAILS"
installs "where a crate isn't proved nothing is installed" 125 "fn left::f: not proved
# the program was not built: left is not proved" 1 install "$prefix"
is_so "and the folder isn't made" [ ! -e "$prefix" ]
: >"$FAILS"
installs "the program is built where it isn't" 0 "$(done_line "$prefix")" 1 install "$prefix"

# What is installed.
mapfile -t pages < <(ls crates/safetynet_program/pages)
expected() {
  echo "d 755 ."
  printf 'd 755 ./%s\n' bin share share/{man,man/man1,bash-completion,bash-completion/completions,safetynet,safetynet/pages}
  echo "f 755 ./bin/safetynet"
  printf 'f 644 ./share/%s\n' man/man1/safetynet.1 bash-completion/completions/safetynet
  printf 'f 644 ./share/safetynet/pages/%s\n' "${pages[@]}"
}
is_so "each file is in its place, with its mode, and none beside" diff <(expected | sort) <(cd "$prefix" && find . -printf '%y %m %p\n' | sort)
is_so "the program is the one that was built" cmp "$repo/build/safetynet" "$prefix/bin/safetynet"
is_so "and runs" [ "$("$prefix/bin/safetynet" x 2>/dev/null)" = "first:x" ]
is_so "the manual page is that of docs" cmp "$top/docs/safetynet.1" "$prefix/share/man/man1/safetynet.1"
is_so "the pages are those of the program" diff -r "$top/crates/safetynet_program/pages" "$prefix/share/safetynet/pages"
if has man "finding the manual page"; then
  is_so "man finds the manual page" [ "$(man -M "$prefix/share/man" -w safetynet)" = "$prefix/share/man/man1/safetynet.1" ]
fi
completes() {
  bash -uc '. "$1"; COMP_WORDS=(safetynet rep) COMP_CWORD=1; _safetynet; [ "${COMPREPLY[*]}" = replay ]' - "$prefix/share/bash-completion/completions/safetynet"
}
is_so "the completion needs no other file" completes
loader=/usr/share/bash-completion/bash_completion
loads() {
  HOME=$work XDG_DATA_DIRS=$prefix/share bash -c '. "$1"; _completion_loader safetynet; complete -p safetynet' - "$loader" 2>/dev/null
}
if [ -e "$loader" ]; then
  is_so "bash-completion finds it" [ "$(loads)" = "complete -F _safetynet safetynet" ]
else
  echo "skipped, since bash-completion isn't there: finding the completion"
fi

# A second one over the first.
listing "$prefix" >"$work/before"
installs "what is installed can be installed again, without a build" 0 "$(done_line "$prefix")" 0 install "$prefix"
as_it_was "and is the same"
echo mine | tee "$prefix/bin/mine" "$prefix/share/safetynet/mine" >/dev/null
exec 3<"$prefix/bin/safetynet"
sleep 0.05
echo second >"$repo/crates/low/src/lib.rt"
mv "$repo/crates/safetynet_program/pages/dis.txt" "$repo/crates/safetynet_program/pages/new.txt"
installs "a program of another text is built anew" 0 "$(done_line "$prefix")" 1 install "$prefix"
is_so "and stands in place of the old one" [ "$("$prefix/bin/safetynet" x 2>/dev/null)" = "second:x" ]
is_so "which stays whole for who has it open" grep -q "first:" <&3
exec 3<&-
is_so "a new page is there, and one that is no more isn't" diff -r "$repo/crates/safetynet_program/pages" "$prefix/share/safetynet/pages"
is_so "what else is there stays" [ "$(cat "$prefix/bin/mine" "$prefix/share/safetynet/mine")" = "mine
mine" ]

# Other ways to name the folder, and to call.
installs "a relative PREFIX is relative to where the user stands" 0 "$(done_line "$work/a/b c")" 0 install "a/b c"
is_so "the same files are there" diff <(listing "$prefix" | grep -v mine) <(listing "$work/a/b c")
ln -s "$repo/safetynet" "$work/link"
safetynet=("$work/link")
installs "a link to the script serves too" 0 "$(done_line "$work/by link")" 0 install "by link/"
safetynet=("$repo/safetynet")
(umask 077 && mkdir "$work/strict" && cd "$work/strict" && "$repo/safetynet" install "here" 2>/dev/null)
is_so "modes don't depend on the umask" diff <(listing "$work/a/b c") <(listing "$work/strict/here")
ln -sf ../a/elsewhere "$work/by link/bin/safetynet"
installs "a link in a file's place" 0 "$(done_line "$work/by link")" 0 install "by link"
is_so "is replaced, and what it leads to isn't made" [ ! -e "$work/a/elsewhere" ]
is_so "by the file" diff <(listing "$work/a/b c") <(listing "$work/by link")

# What stands in the way is said before anything is built, and nothing is changed.
sleep 0.05
echo third >"$repo/crates/low/src/lib.rt"
: >"$work/a file"
refuses "a PREFIX that is a file" "$work/a file is no folder" "a file"
refuses "and one below it" "$work/a file is no folder" "a file/below/it"
mkdir -p "$work/taken/bin/safetynet" "$work/taken too"
: >"$work/taken too/share"
ln -s nowhere "$work/to nowhere"
refuses "a folder in a file's place" "$work/taken/bin/safetynet is a folder" taken
refuses "a file in a folder's place" "$work/taken too/share is no folder" "taken too"
refuses "a link to nothing" "$work/to nowhere is no folder" "to nowhere"
is_so "nothing is made" [ "$(cd "$work" && find taken* | sort | tr '\n' :)" = "taken:taken too:taken too/share:taken/bin:taken/bin/safetynet:" ]

# Without the right to write. Root has it everywhere, so a test as root gives it up.
as_user=()
[ "$(id -u)" != 0 ] || as_user=(setpriv "--bounding-set=-dac_override,-dac_read_search" --)
if has "${as_user[0]-env}" "refusals for want of a right" && ${as_user[@]+"${as_user[@]}"} true; then
  safetynet=(${as_user[@]+"${as_user[@]}"} "$repo/safetynet")
  mkdir "$work/read only" "$work/closed"
  chmod 555 "$work/read only"
  chmod 000 "$work/closed"
  refuses "a folder that can't be written" "$work/read only/bin/safetynet: Permission denied" "read only"
  refuses "and one below it" "$work/read only/below/bin/safetynet: Permission denied" "read only/below"
  refuses "a folder that can't be looked into" "$work/closed/bin/safetynet: Permission denied" closed
  chmod 755 "$work/closed"
  is_so "nothing is made" rmdir "$work/read only" "$work/closed"
  listing "$prefix" >"$work/before"
  chmod 555 "$prefix/share/safetynet/pages"
  refuses "one folder of an earlier one that can't be written" "$prefix/share/safetynet/pages/asm.txt: Permission denied" "$prefix"
  chmod 755 "$prefix/share/safetynet/pages"
  as_it_was "and the rest is as it was"
  safetynet=("$repo/safetynet")
fi

# What fails only on the way: whatever there was is as it was.
"$repo/safetynet" --build 2>/dev/null
listing "$prefix" >"$work/before"
safetynet=(in_small_files 12 "$repo/safetynet")
man_page=share/man/man1/safetynet.1
refuses "a file that finds no room, over an earlier one" "$prefix/$man_page: File too large" "$prefix"
as_it_was "leaves that as it was"
refuses "and where nothing was" "$work/fresh/$man_page: File too large" fresh
is_so "leaves nothing" [ ! -e "$work/fresh" ]
safetynet=("$repo/safetynet")
mv "$repo/docs/safetynet.1" "$repo/docs/gone"
refuses "a file of the checkout that is gone" "$repo/docs/safetynet.1: No such file or directory" "$prefix"
as_it_was "leaves the earlier one"
mv "$repo/docs/gone" "$repo/docs/safetynet.1"
# Each copy and each renaming fails in turn, once by an error and once by the user's end.
fails_in_turn() {
  python3 - "$repo/tools" "$1" "$2" <<'END'
import os, shutil, sys
sys.path.insert(0, sys.argv[1])
import install
from pathlib import Path

prefix, name, left, copy, replace = sys.argv[2], sys.argv[3], [0], shutil.copyfile, Path.replace

def counted(call):
    def one(*words, **more):
        left[0] -= 1
        if left[0] == -1:
            raise OSError(28, "No space left on device") if name == "error" else KeyboardInterrupt()
        return call(*words, **more)
    return one

shutil.copyfile = install.shutil.copyfile = counted(copy)
if name == "error":
    Path.replace = counted(replace)
# each file is put beside its place, what is there is kept, and then each is renamed
places = [Path(prefix, it.place) for it in install.placed()]
for turn in range(len(places) * (2 if name == "error" else 1) + sum(it.exists() for it in places)):
    left[0] = turn
    try:
        status = install.main([prefix])
    except KeyboardInterrupt:
        status = 1
    found = sorted(str(it) for it in Path(prefix).rglob("*")) if os.path.exists(prefix) else []
    sums = [Path(it).read_bytes() for it in found if os.path.isfile(it)]
    print(turn, status, found, hash(repr(sums)))
END
}
for how in error interrupt; do
  for place in "$prefix" "$work/fresh"; do
    fails_in_turn "$place" "$how" >"$work/turns" 2>"$work/err"
    is_so "whichever call fails ($how), the status is 1" [ "$(cut -d ' ' -f 2 "$work/turns" | sort -u)" = 1 ]
    is_so "and what stands there is the same ($how)" [ "$(cut -d ' ' -f 3- "$work/turns" | sort -u | wc -l)" = 1 ]
  done
done
as_it_was "so an earlier one is"
is_so "and where nothing was there is nothing" [ ! -e "$work/fresh" ]
installs "then it is installed after all" 0 "$(done_line "$prefix")" 0 install "$prefix"
is_so "as it is now" [ "$("$prefix/bin/safetynet" x 2>/dev/null)" = "third:x" ]

told installed
