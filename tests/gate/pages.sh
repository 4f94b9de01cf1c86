#!/usr/bin/env bash
# Holds what is made of the program's pages against them: the source's texts, the script ./safetynet, the manual page, the completion and the
# version in CHANGELOG.md; docs/promises against the crates; and the Python of tools/, tests/ and bench/ against its types. None of it needs the
# program. A part whose tool isn't there is skipped, and says so.
set -u
cd "$(dirname "$0")/../.." || exit 1
. tests/gate/lib/checks.sh
export PYTHONDONTWRITEBYTECODE=1
pages=crates/safetynet_program/pages

# The texts of the source are the pages, a file each, which the script shows before anything is built.
is_so "the texts of help_pages are the pages" python3 tests/pages_of_source.py
mapfile -t calls < <(python3 tools/pages.py)
for call in "${calls[@]}"; do
  IFS=, read -ra words <<<"${call#*=}"
  is_so "./safetynet ${words[*]} shows the page ${call%%=*}" diff "$pages/${call%%=*}.txt" <(./safetynet "${words[@]}")
done
is_so "each page but the overview is shown so" \
  diff <(printf '%s\n' overview "${calls[@]%%=*}" | sort -u) <(for page in "$pages"/*.txt; do basename "$page" .txt; done)

# What the promises name is there.
is_so "docs/promises name what the crates have" python3 tests/pages_of_promises.py

# The version stands at the top of the changes.
is_so "the newest version of CHANGELOG.md is that of the program" \
  [ "safetynet $(sed -n 's/^## \([^ ]*\) .*/\1/p' CHANGELOG.md | head -n 1)" = "$(cat "$pages/version.txt")" ]

# The manual page.
man=docs/safetynet.1
is_so "docs/safetynet.1 is what tools/man_page.py makes (--write writes it)" diff "$man" <(python3 tools/man_page.py)
if has groff "typesetting the manual page"; then
  is_so "groff has nothing to say of $man" is_silent groff -man -ww -z -Tutf8 "$man"
fi
shown_in() { # columns
  LC_ALL=C.UTF-8 MANWIDTH=$1 man --warnings -l "$man" >"$work/shown"
}
if has man "showing the manual page"; then
  for width in 60 80 200; do
    is_so "man shows $man in $width columns" is_silent shown_in "$width"
    is_so "all of it" [ "$(tail -n 1 "$work/shown" | cut -d ' ' -f 1,2)" = "$(cat "$pages/version.txt")" ]
  done
fi
if has mandoc "checking the manual page's form"; then
  is_so "mandoc has nothing to say of $man" is_silent mandoc -Tlint -Wwarning "$man"
fi

# The completion, and the types of all Python that tests and measures; that of python/, of campaigns/ and of what draws is checked beside it.
is_so "the completion offers what the pages have" python3 tests/completed_words.py
if has shellcheck "looking through the shell's scripts"; then
  is_so "shellcheck has nothing to say of the completion" is_silent shellcheck -s bash contrib/completion.bash
  is_so "nor of what installs and tests" is_silent shellcheck -x tools/packages tests/gate/{installed,released,packages,pages,stands_alone}.sh
fi
if has mypy "checking the types of the tools, and of what tests and measures"; then
  is_so "mypy has nothing to say of the tools" mypy_says --python-version 3.9 tools/*.py tools/release
  MYPYPATH=python:tools is_so "nor of what tests and measures" mypy_says --python-version 3.9 --ignore-missing-imports {bench,tests,tests/definitions,tests/gate/lib}/*.py
fi

told pages
