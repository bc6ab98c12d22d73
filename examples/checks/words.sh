# shellcheck shell=bash disable=SC2154  # examples/check, which reads this file, gives the names that stand for nothing here
# words
case_ 'no words' 2 '' 'error usage' "$program"
case_ 'a word that is no command' 2 '' 'error usage' "$lnc draw $orient"
case_ 'a word too few' 2 '' 'error usage' "$run"
case_ 'a word too many' 2 '' 'error usage' "$run $rows extra"
case_ 'an empty word' 2 '' 'error usage' "$lnc ''"
case_ 'a word that is no text' 2 '' 'error usage' "$lnc check \$'\\xff'"
case_ 'a listing needs a file' 2 '' 'error usage' "$lnc list"
case_ 'a listing of one word too many' 2 '' 'error usage' "$lnc list $orient orient"
case_ 'C needs a file' 2 '' 'error usage' "$lnc emit"
case_ 'C of one word too many' 2 '' 'error usage' "$lnc emit $orient orient"
case_ 'no such predicate' 4 '' 'error predicate' "$lnc run $orient nosuch $rows"
