# shellcheck shell=bash disable=SC2154  # examples/check, which reads this file, gives the names that stand for nothing here
# the files that CONTRIBUTING.md names: those with an arm for an operation, by the sources, and those that a command changes, by a dummy command in
# a copy of ln_top, which bench/command compiles too
case_ 'the files that an operation changes' 0 "$(sed -n '/from the sources: an operation/,/to here/p' CONTRIBUTING.md | grep -c '^| ln') rows" '' 'python3 examples/checks/operation.py compare'
case_ 'the files that a command changes' 0 '9 files change, those that CONTRIBUTING.md names' '' 'bench/command compare'
case_ 'the names of definitions that stand in several crates are no more' 0 'thousands of names, 0 more than before in several crates, 0 fewer' '' \
  'python3 examples/checks/twins.py compare | sed "s/^[1-9][0-9]\{3\} names/thousands of names/"'
