#compdef lnc lnc_c lnc_exact
# Completion for lnc, lnc_c and lnc_exact: commands, files, and the names of a source's predicates.
_lnc_predicates() {
  local -a names
  names=(${(f)"$(grep -o 'predicate  *[A-Za-z_][A-Za-z_0-9]*' -- ${(Q)words[3]} 2>/dev/null | sed 's/.* //')"})
  compadd -a names
}
_lnc() {
  if [[ ${words[1]:t} == lnc && $CURRENT == 2 ]]; then
    compadd check run graded product edges explain audit gen emit list verify
    return
  fi
  case ${words[2]}$CURRENT in
    (run|graded|edges|explain|audit|gen)4) _lnc_predicates; return ;;
    product*) (( CURRENT > 3 )) && _lnc_predicates ;;
    gen*) (( CURRENT == 3 )) || return ;;
  esac
  _files
}
_lnc "$@"
