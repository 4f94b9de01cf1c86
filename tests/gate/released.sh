#!/usr/bin/env bash
# Shows what tools/release makes: the same bytes twice, sums that fit, a program that runs with nothing in its environment, and a text that says
# what was proved of which text. Over a small repository, with stand-ins for rt and for the program. A part whose tool isn't there is skipped.
set -u
cd "$(dirname "$0")/../.." || exit 1
. tests/gate/lib/checks.sh
. tests/gate/lib/small_repository.sh
export CALLS=$work/calls FAILS=$work/fails PYTHONDONTWRITEBYTECODE=1 LC_ALL=C PATH=$work/bin:$PATH
# the small repository's git is its own
unset "${!GIT_@}"
top=$PWD repo="$work/a repo" to="$work/to here"
small_repository "$work/bin" "$repo"
cp README.md LICENSE CHANGELOG.md "$repo"
cp docs/FORMATS.md "$repo/docs"
mkdir "$repo/examples"
cp -r examples/first "$repo/examples"
says=$(cat crates/safetynet_program/pages/version.txt)
name=safetynet-${says#* } archive="$to/safetynet-${says#* }-x86_64-linux.tar.gz"
: >"$FAILS"

builds() { # builds with the stand-in for rt, and puts another program in that one's place
  "$repo/safetynet" --build 2>"$work/err" && python3 "$top/tests/gate/lib/stand_in_program.py" "$repo/build/safetynet" "$says"
}
releases() { # what it shows, status, standard output, the last line of standard error
  (cd "$work" && "$repo/tools/release" "to here") >"$work/out" 2>"$work/err"
  local found=$?
  is_so "$1: status $found, $(cat "$work/out" "$work/err")" [ "$found:$(cat "$work/out"):$(tail -n 1 "$work/err")" = "$2:$3:$4" ]
}
refuses() { # what it shows, why
  releases "$1" 1 "" "# release: $2; no archive was made"
}
unpack() {
  rm -rf "$work/unpacked" && mkdir "$work/unpacked" && tar -xzf "$archive" -C "$work/unpacked"
}
proved() { # a line of PROVED.txt
  grep -qxF "$1" "$work/unpacked/$name/PROVED.txt"
}

# What there is no archive of.
(cd "$work" && "$repo/tools/release" one two) >"$work/out" 2>"$work/err"
is_so "two folders are refused" [ "$?:$(cat "$work/out" "$work/err")" = "1:usage: tools/release [FOLDER]" ]
echo left >"$FAILS"
refuses "a program with a crate that isn't proved" "the program isn't built"
: >"$FAILS"
refuses "one that isn't of this version" "the program says b'first:--version\\n' to --version, and not the version of CHANGELOG.md, with status 7"
is_so "the program is put in place" builds
: >"$repo/build/toolchain"
refuses "one of an unknown toolchain" "the toolchain that built the program didn't tell its version"
rm "$repo/build/toolchain"
is_so "the program is built again" builds
is_so "nothing is left of these" [ -z "$(ls -A "$to")" ]

# The archive. What is on the path by then didn't prove the program.
echo "another toolchain" >"$work/WHAT"
releases "the archive is named" 0 "to here/${archive##*/}" ""
is_so "and stands there alone" [ "$(ls -A "$to")" = "${archive##*/}" ]
is_so "it is unpacked" unpack
expected() {
  (cd "$repo" && find examples -type f)
  printf '%s\n' CHANGELOG.md LICENSE PROVED.txt README.md SHA256SUMS bin/safetynet docs/FORMATS.md tools/install.py
  printf 'share/%s\n' man/man1/safetynet.1 bash-completion/completions/safetynet
  (cd "$repo/crates/safetynet_program/pages" && printf 'share/safetynet/pages/%s\n' *)
}
is_so "into these files, below one folder" diff <(expected | sed "s:^:$name/:" | sort) <(cd "$work/unpacked" && find . -type f | sed 's:^./::' | sort)
is_so "all of one day, and of nobody" [ "$(tar -tvzf "$archive" --numeric-owner --full-time --utc | awk '{ print $2, $4, $5 }' | sort -u)" = \
  "0/0 $(sed -n 's/^## .* (\(.*\))$/\1/p' CHANGELOG.md | head -n 1) 00:00:00" ]
sums_fit() {
  (cd "$work/unpacked/$name" && sha256sum --quiet --strict -c SHA256SUMS)
}
is_so "the sums fit" sums_fit
is_so "and there is one of each other file" diff <(expected | grep -v SHA256SUMS | sort) <(cut -c 67- "$work/unpacked/$name/SHA256SUMS")
is_so "the program runs with nothing in its environment" [ "$(env -i PATH= "$work/unpacked/$name/bin/safetynet" --version)" = "$says" ]
"$work/unpacked/$name/tools/install.py" "$work/from archive" 2>/dev/null
"$repo/safetynet" install "$work/from checkout" 2>/dev/null
is_so "what is installed from it is what a checkout installs" diff -r "$work/from archive" "$work/from checkout"
is_so "and is there" [ -x "$work/from archive/bin/safetynet" ]

# The same bytes, whatever stands in the way of them.
cp "$archive" "$work/first.tar.gz"
find "$repo/docs" "$repo/examples" "$repo/build/safetynet" -exec touch -d 2001-01-01 {} +
chmod -R go-rwx "$repo/docs"
TZ=Asia/Tokyo releases "it is made again" 0 "to here/${archive##*/}" ""
is_so "and is the same bytes" cmp "$work/first.tar.gz" "$archive"

# What was proved of which text.
is_so "the program's sum" proved "  program    SHA-256 $(sha256sum <"$repo/build/safetynet" | cut -d ' ' -f 1)"
is_so "the toolchain that built it" proved "  toolchain  one toolchain"
is_so "the handles" proved "  handles    Handles allowed: Wait."
is_so "what the program needs" proved "  Linux on a processor of x86-64-v2 or later, and nothing else: the program is static."
is_so "where there is no repository" proved "  text       of no repository"
sums_are() { # by the command that the text names
  local command folder
  command=$(sed -n 's/^  \(find FOLDER.*\)/\1/p' "$work/unpacked/$name/PROVED.txt")
  while read -r folder; do
    proved "  $(cd "$repo" && bash -c "${command//FOLDER/$folder}" 2>/dev/null | cut -d ' ' -f 1)  $folder" || return
  done < <(printf 'crates/%s\n' left low right safetynet_program)
  proved "  $(cd "$repo" && sha256sum HANDLES crates.txt | sha256sum | cut -d ' ' -f 1)  HANDLES crates.txt"
}
is_so "each crate's sum is what the command there gives" sums_are
is_so "a crate that the program doesn't stand on isn't named" [ "$(grep -c aside "$work/unpacked/$name/PROVED.txt")" = 0 ]
if has git "the revision of the text"; then
  in_git() { git -C "$repo" -c user.name=a -c user.email=a@b "$@" >/dev/null 2>&1; }
  printf '%s\n' build/ out/ >"$repo/.gitignore"
  in_git init && in_git add . && in_git commit -m one
  revision=$(git -C "$repo" rev-parse HEAD)
  : >"$repo/docs/not of git"
  releases "with a repository" 0 "to here/${archive##*/}" "" && unpack
  is_so "its revision is named" proved "  text       revision $revision"
  is_so "and what isn't committed isn't handed on" [ ! -e "$work/unpacked/$name/docs/not of git" ]
  echo more >>"$repo/docs/FORMATS.md"
  sleep 0.05
  echo second >"$repo/crates/aside/src/lib.rt"
  releases "a change of what the program wasn't built from" 0 "to here/${archive##*/}" "" && unpack
  is_so "leaves the revision" proved "  text       revision $revision"
  echo second >"$repo/crates/low/src/lib.rt"
  builds && releases "a change of what it was built from" 0 "to here/${archive##*/}" "" && unpack
  is_so "is told" proved "  text       changed since revision $revision"
  is_so "with the new text's sum" sums_are
fi

# What a program needs, by the names in it, is what the loader loads.
needs() { # a program
  python3 - "$repo/tools" "$1" <<'END'
import importlib.machinery, importlib.util, sys
from pathlib import Path
sys.path.insert(0, sys.argv[1])
loader = importlib.machinery.SourceFileLoader("release", f"{sys.argv[1]}/release")
release = importlib.util.module_from_spec(importlib.util.spec_from_loader("release", loader))
loader.exec_module(release)
print(release.needs_of(Path(sys.argv[2]).read_bytes()))
END
}
loads() {
  ldd "$1" | grep -v linux-vdso | sed 's/^\t*//; s/ .*//; s:.*/::' | sort | paste -sd , | sed 's/,/, /g'
}
if has ldd "what a program needs"; then
  program=$(command -v bash)
  [[ $(needs "$program") =~ ^(Linux.*later, and )(.*)\ of\ glibc\ ([0-9.]+)\ or\ later\.$ ]]
  is_so "the libraries and the loader of a program are named" [ "${BASH_REMATCH[2]-}" = "$(loads "$program")" ]
  is_so "and its C library's version" grep -qaF "GLIBC_${BASH_REMATCH[3]-none}" "$program"
fi

told released
