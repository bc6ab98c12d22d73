# shellcheck shell=bash
# Completion for lnc, lnc_c and lnc_exact: commands, files, and the names of a source's predicates.
_lnc() {
  local word=${COMP_WORDS[COMP_CWORD]} command=${COMP_WORDS[1]} place=$COMP_CWORD
  COMPREPLY=()
  if [ "${COMP_WORDS[0]##*/}" = lnc ] && [ "$place" = 1 ]; then
    mapfile -t COMPREPLY < <(compgen -W 'check run graded product edges explain audit gen emit list verify' -- "$word")
    return
  fi
  case $command$place in
    run3 | graded3 | edges3 | explain3 | audit3 | gen3 | product*)
      if [ "$place" -gt 2 ]; then
        mapfile -t COMPREPLY < <(compgen -W "$(grep -o 'predicate  *[A-Za-z_][A-Za-z_0-9]*' "${COMP_WORDS[2]}" 2>/dev/null | sed 's/.* //')" -- "$word")
        [ "$command" = product ] || return
      fi ;;
    gen*) [ "$place" = 2 ] || return ;;
  esac
  mapfile -t -O "${#COMPREPLY[@]}" COMPREPLY < <(compgen -f -- "$word")
}
complete -o filenames -F _lnc lnc lnc_c lnc_exact
