#!/usr/bin/env bash
# The repository cites nothing that isn't in it by number, links and names nothing that isn't there, holds no build output, keeps its handles, and
# lists for each crate what it mentions, by few paths.
set -u
cd "$(dirname "$0")/../.." || exit 1
. tests/gate/lib/checks.sh

none_of() { # lines
  [ -z "$1" ] || { head -n 5 <<<"$1" >&2; false; }
}
cites=$(grep -rnEI '\b(document 0[1-4]|0[1-4]-(scope|theorems|stages|tables)|04\.[1-9]\b|[TR][1-9]\.[1-9]\b)' --include='*.rt' --include='*.antt' --include='*.md' --include='*.sh' --include='*.py' . --exclude-dir=out --exclude=stands_alone.sh)
is_so "no paper is cited by number" none_of "$cites"
is_so "links of pages lead somewhere, and the paths that pages name are there" python3 tests/page_links.py
mkdir -p "$work/pages/docs"
# shellcheck disable=SC2016 # what stands between backquotes is a page's
printf '%s\n' '# One' '[a](b.md) [c](#one) [d](#two) `[e](f.md)` tests/none.sh docs/NAME.md' >"$work/pages/docs/page.md"
is_so "what leads nowhere is named" diff - <(python3 tests/page_links.py "$work/pages" 2>&1) <<'END'
docs/page.md: the link b.md leads nowhere
docs/page.md: the link #two leads nowhere
docs/page.md: there is no tests/none.sh
END
is_so "HANDLES is its one line" [ "$(cat HANDLES)" = "Handles allowed: Threads, Wait." ]
is_so "no build output is committed" none_of "$(git ls-files -- 'crates/*/out/*' 2>/dev/null)"
is_so "crates.txt has for each crate what its sources mention" python3 tools/crate_edges.py
is_so "an older rt can walk the paths of crates.txt" python3 tools/crate_edges.py --paths

told "stands alone"
