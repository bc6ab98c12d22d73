# shellcheck shell=bash disable=SC2154,SC2016  # examples/check, which reads this file, gives the names that stand for nothing here
# what pages say of what is printed: the listing of docs/LISTING.md is valid, and `lnc list` prints another one, as long as it says
sed -n '/^site num/,/^```/p' docs/LISTING.md | grep -v '^```' >"$scratch/squares.ln"
sed -n '/^| lines | text/,/^$/p' docs/LISTING.md | sed 1,2d | cut -d'|' -f3 | grep -o '`[^`]*`' | tr -d '`' >"$scratch/page.list"
case_ 'the listing of the page has the lines that it says, and is valid' 0 $'43\nvalid' '' "wc -l <$scratch/page.list; grep -q 'of 43 lines' docs/LISTING.md && $lnc verify $scratch/squares.ln $scratch/page.list"
case_ 'that of lnc list is another' 0 '47 another' '' "$lnc list $scratch/squares.ln >$scratch/own.list; grep -q 'another valid one, of 47' docs/LISTING.md && echo \$(wc -l <$scratch/own.list) \$(cmp -s $scratch/own.list $scratch/page.list || echo another)"
case_ 'counts.py says its words' 2 '' 'Usage' "python3 examples/checks/counts.py 2>&1 >/dev/null | grep -o Usage >&2; exit \${PIPESTATUS[0]}"
