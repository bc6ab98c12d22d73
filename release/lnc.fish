# Completion for lnc, lnc_c and lnc_exact: commands, files, and the names of a source's predicates.
function __lnc_words
    count (commandline -opc)
end
function __lnc_predicates
    set -l words (commandline -opc)
    grep -o 'predicate  *[A-Za-z_][A-Za-z_0-9]*' -- $words[3] 2>/dev/null | sed 's/.* //'
end
complete -c lnc -n 'test (__lnc_words) = 1' -f -a 'check run graded product edges explain audit gen emit list verify'
complete -c lnc -n 'test (__lnc_words) = 3; and __fish_seen_subcommand_from run graded edges explain audit gen' -f -a '(__lnc_predicates)'
complete -c lnc -n 'test (__lnc_words) -gt 2; and __fish_seen_subcommand_from product' -a '(__lnc_predicates)'
complete -c lnc -n 'test (__lnc_words) -gt 3; and __fish_seen_subcommand_from gen' -f
