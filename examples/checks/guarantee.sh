# shellcheck shell=bash disable=SC2154  # examples/check, which reads this file, gives the names that stand for nothing here
# the headline in one file, crates/ln_top/specs/Guarantee.antt, followed line by line by a plain program (guarantee.py): its signs are the first bytes of the
# lines that `run` writes, on all worked rows and on rows that are made, and of the lines that were worked out by hand. What is wanted counts rows by their
# signs, and `?` where a record is no row. With one infinitesimal out of its order, or another line by hand, some differ: here is the first
definitions=examples/checks/guarantee.py
by='python3 examples/checks/worked.py'
case_ 'the definitions give each worked row of run' 0 'from_files: 40 rows of 12 tables: 23 +, 14 -, 1 0, 2 ?
from_documents: 12 rows of 2 tables: 6 +, 3 -, 0 0, 3 ?
from_table: 11161 rows of 17 tables: 7431 +, 18 -, 1 0, 3711 ?' '' "$by $lnc $definitions worked"
case_ 'the definitions give rows that are made' 0 'made: 540 rows of 9 tables: 250 +, 290 -, 0 0, 0 ?' '' "$by $lnc $definitions made predicates/plane.ln 7 60"
differs() { # WHAT LINE CHANGE FILE: what is said with this file, changed, in place of the one of its name
  mkdir -p "$scratch/changed"; cp "$definitions" examples/checks/worked.py examples/checks/commands_table.py "$scratch/changed"
  sed -i "$3" "$scratch/changed/$4"
  case_ "found: $1" 0 "$2" '' "python3 $scratch/changed/worked.py $lnc $scratch/changed/guarantee.py worked | awk '/lnc writes/ && !n++'"
}
differs 'a site of a larger index is moved more' 'insphere, record 1: lnc writes -, the definitions say +' 's/index\[s\] < sites/index[s] > sites/' guarantee.py
differs 'a coordinate declared first is moved more' 'orient, record 5: lnc writes +, the definitions say -' 's/s == t and w < v/s == t and v < w/' guarantee.py
differs 'a param is moved' 'z, record 1: lnc writes 0, the definitions say +' 's/sites.append(None)/sites.append(0)/' guarantee.py
differs 'a line by hand is another one' 'orient, record 1: lnc writes -, the definitions say -, by hand it is +' 's/"- 2\\n"/"+ 2\\n"/' commands_table.py
