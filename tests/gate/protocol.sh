#!/usr/bin/env bash
# Holds the tables of docs/PROTOCOL.md against the definitions, and shows that a page that says something else is refused, and definitions that do, or
# that can't be read. None of it needs the program.
set -u
cd "$(dirname "$0")/../.." || exit 1
. tests/gate/lib/checks.sh
export PYTHONDONTWRITEBYTECODE=1

is_so "the tables of docs/PROTOCOL.md are what the definitions say" python3 tests/protocol_table.py

compared() { # status, what is said, page, crates
  python3 tests/protocol_table.py "$3" "$4" 2>"$work/said"
  [ "$?" -eq "$1" ] && grep -qF -- "$2" "$work/said"
}
# The page with a change, which sed makes.
page() { # status, what is said, change
  sed "$3" docs/PROTOCOL.md >"$work/page.md"
  ! cmp -s docs/PROTOCOL.md "$work/page.md" && compared "$1" "$2" "$work/page.md" crates
}
is_so "a row left out is refused" page 1 "the definitions: \`DataS\` | \`data_shared\` | \`DataShared\`" '/^| .DataS. | .data_shared. /d'
is_so "another body is refused" page 1 "the page: \`DataM\` | \`data_shared\` | \`DataShared\`" '/^| .DataS. | .data_shared. /s/DataS/DataM/'
is_so "another row is refused" page 1 "the page: \`GetM\` | \`upgrade\` | \`Takes\`" '/^| .GetM. | .take. /s/take/upgrade/'
is_so "another name of an event is refused" page 1 "the page: \`PutGo\` | \`put_go\` | \`PutGo\`" 's/PutGoes/PutGo/'
is_so "a row too many is refused" page 1 "the page: \`Nack\` | " "/^| .Inv. /s/\$/\n| \`Nack\` | \`refuse\` | \`Refuses\` |/"
is_so "rows in another order are refused" page 1 "the page: \`Inv\` | " '/^| .Inv. /{h;d};/^| .DataS. /G'
is_so "a home's row in another state is refused" page 1 "the page: GetS | \`read_at_home\` | \`read_at_home\` | " '/^| GetS | /s/grant_exclusive/read_at_home/'
is_so "a message that doesn't wait is refused" page 1 "the page: PutReq | " '/^| PutReq/s/HomeBusy/✗/'
is_so "another message sent is refused" page 1 "the page: take | note now WasHome | no sharers; opens Take; r owns | sends DataE; sends Inv" '/^| .take. | (now/s/DataM(d, a)/DataE(d)/'
is_so "another interval of a note is refused" page 1 "the page: put_data | note now WasCache | " 's/(tag, WasCache r)/(now, WasCache r)/'
is_so "a lost copy that stays is refused" page 1 "the page: PutGo: note now Owned; put closes; sends PutData" '/^| PutGo/s/the copy is lost; //'
is_so "another field of a body is refused" page 1 "the page: UpgOk(r): " 's/^| UpgOk(due)/| UpgOk(r)/'
is_so "a table that isn't there is refused" page 2 "0 tables of the page begin with | Body | Row | Event |" 's/^| Body | Row | Event |/| Body | Event |/'
is_so "and one without a row" page 2 "0 tables of the page begin with | Message | What it does |" '/^| Ready(k)/d;/^| Advance(k)/d'
is_so "and no page at all" compared 2 "can't be read: " "$work/none.md" crates

# The definitions with a change.
definitions() { # status, what is said, file, change
  local it
  for it in sn_msg/src/lib.rt sn_coherence/specs/Events.antt sn_model/specs/{NetEvents,Receivers,CacheRows,HomeRows}.antt; do
    mkdir -p "$work/crates/${it%/*}" && cp "crates/$it" "$work/crates/$it"
  done
  sed -i "$4" "$work/crates/$3"
  ! cmp -s "crates/$3" "$work/crates/$3" && compared "$1" "$2" docs/PROTOCOL.md "$work/crates"
}
events=sn_coherence/specs/Events.antt net=sn_model/specs/NetEvents.antt receivers=sn_model/specs/Receivers.antt
cache=sn_model/specs/CacheRows.antt home=sn_model/specs/HomeRows.antt
is_so "an event of another body is found" definitions 1 "the definitions: \`DataM\` | " $events '/^Allows N b (DataShared/s/DataS$/DataM/'
is_so "an event with another row is found" definitions 1 "| \`PutBegins\`" $events '/^after N b (PutBegins/s/put_begins/put_is_stale/'
is_so "another name of an event is found" definitions 1 "the definitions: \`Inv\` | \`invalidate\` | \`Drops\`" $events 's/\bInvalidate\b/Drops/'
is_so "a row for another body is found" definitions 1 "sn_model: PutGo put_done" $receivers '/^receiver_of PutGo/s/row.PutGo/row.PutDone/'
is_so "another function of a row is found" definitions 1 "sn_model: PutGo put_done" $cache '/^cache_reply .* row.PutGo/s/put_go/put_done/'
is_so "another row of an entry is found" definitions 1 "sn_model: GetM grant_exclusive" $home '/^write_row (Itself/s/row.Take/row.GrantExclusive/'
is_so "a request that needn't wait is found" definitions 1 "the page: PutReq | " $home '/^is_request asked.PutReq/s/true/false/'
is_so "a body without an event is found" definitions 1 "sn_msg: Nack" sn_msg/src/lib.rt 's/^    InvAck,/&\n    Nack,/'
is_so "another note of a row is found" definitions 1 "the definitions: put_data | note now WasCache | " $home 's/at.log tag block (WasCache r)/at.log now block (WasCache r)/'
is_so "another line is found" definitions 1 "the definitions: FwdGetS(r): line S; " $cache 's/with_line at.cache block Owned/with_line at.cache block Shared/'
is_so "an unknown condition is refused" definitions 2 "the condition of GrantExclusive names no columns" $events '/^Allows N b (Grant/s/≡ 0/≡ 1/'
is_so "a message named in another way is refused" definitions 2 "Acknowledge doesn't begin with the message that has come" $events 's/Arrives b i InvAck/(b.net i).body ≡ InvAck/'
is_so "a function that isn't there is refused" definitions 2 "outcome_by isn't a function with clauses" $net 's/outcome_by/result_by/'
is_so "and a type" definitions 2 "no enum Body" sn_msg/src/lib.rt 's/enum Body/enum Kind/'
is_so "a function that doesn't go by variants is refused" definitions 2 "receiver_of hasn't one clause for each variant" $receivers \
  's/^receiver_of GetS =/receiver_of body =/'
is_so "and a receiver that isn't one" definitions 2 "receiver.Nobody isn't a receiver" $receivers '/^receiver_of GetS/s/receiver.Home asked.GetS/receiver.Nobody/'

if has shellcheck "checking this part"; then
  is_so "shellcheck has nothing to say of it" shellcheck -x tests/gate/protocol.sh
fi
told protocol
