# shellcheck shell=bash disable=SC2154  # examples/check, which reads this file, gives the names that stand for nothing here
# the documents beside the repository: the list that is made from crates.txt; links, names and files that the documents speak of; the table of
# README.md's first run, which has the sample's rows with their lines; the prover's logic, where one is installed; how scripts begin. Of the proofs, that
# each public lemma and definition has a line of its own, and that each is named somewhere. Of docs/MAP.md, that it names each law; of docs/THEOREM.md,
# that it names each clause of `lnc`, and says how much there is to read. Of README.md, that it says how many promises have a wrong body that was refused
# Each says how much it looked at, which is counted here in another way; planted.sh sees that they find what is wrong
of_crates() { grep '^[a-z][a-z_0-9]*:' crates.txt; }
all_of() { find crates -name out -prune -o -type f "$@" -print; }
clauses=$(sed -n '/from bin.statement: how much/,/to here/p' docs/THEOREM.md | grep -c '^| `')
case_ 'the list of crates is that of crates.txt' 0 "$(of_crates | wc -l) crates in $(grep -c '^# == ' crates.txt) groups" '' 'python3 examples/checks/crates.py compare'
pages=(README.md CONTRIBUTING.md CHANGELOG.md examples/README.md docs/*.md predicates/*.md)
case_ 'links, names and files of the documents are there, and no line is too long' 0 \
  "${#pages[@]} pages, $(cat "${pages[@]}" | grep -oE '\]\([^) ]+\)' | wc -l) links, $(all_of \( -name '*.rt' -o -name '*.antt' \) | xargs cat | wc -l) lines of sources" '' 'python3 examples/checks/docs.py'
case_ 'the rows of the first run' 0 "$(sed 1d "$rows" | paste -d' ' - <("$lnc" run "$orient" orient "$rows"))" '' \
  "sed -n 's/^| .\\([0-9,-]*\\). | .\\([-+] [F0-9]*\\). | .*/\\1 \\2/p' README.md"
lemmas=$(all_of \( -path '*/proofs/*' -o -path '*/specs/*' \) -name '*.antt' | grep -vcE '/(Answers|Invariants|Proof|Lib)[.]antt$')
case_ 'public lemmas and definitions have a line each, and each is named somewhere' 0 "$lemmas files" '' 'python3 examples/checks/proofs.py'
case_ 'docs/MAP.md names each law, and docs/THEOREM.md each clause of lnc' 0 "$(grep -rlE '^ *(ensures|requires)\b' crates/*/src --include='*.rt' | cut -d/ -f2 | sort -u | wc -l) crates, $clauses clauses of lnc" '' 'python3 examples/checks/laws.py'
case_ 'docs/THEOREM.md says how much bin/statement prints' 0 "$clauses clauses" '' 'bin/statement --compare'
case_ 'the source that a law works out is the sample' 0 "$(cat examples/orientation/orient.ln)" '' "sed -n 's/^ .*codes \"\\(.*\\)\\\\n\".*/\\1/p' crates/ln_top/specs/Sources.antt"
case_ 'README.md says which promises edits are against' 0 "$(all_of -path '*must-fail/*.edit' | wc -l) edits" '' 'python3 examples/checks/matrix.py --compare'
# the logic decides what is proved, whatever the letter of the kit that brings it
named=$(grep -om1 'logic [0-9a-f]\{16\}' README.md)
mkdir "$scratch/kit"; printf '#!/bin/sh\necho "rattle-kit-99z %s"\n' "$named" >"$scratch/kit/rt"; chmod +x "$scratch/kit/rt"
for kit in '' "$scratch/kit:"; do
  case_ "README.md names the logic of the prover${kit:+, of a kit that nothing names}" 0 "$named" '' \
    "PATH=$kit\$PATH; if command -v rt >/dev/null; then rt version | grep -o 'logic [0-9a-f]*'; else echo '$named'; fi"
done
case_ 'no kit has its letter elsewhere than beside what was measured' 0 '' '' "grep -rnE '[k]it[- ][0-9]+[a-z]' --exclude-dir=checks README.md CONTRIBUTING.md docs examples predicates release bin .ci || true"
case_ 'each script forgets what a shell, grep and git take from the environment' 0 "$(find .ci bin bench examples predicates release -type f -print0 | xargs -0 awk 'FNR == 1 && /^#!.*sh$/ { n++ } { nextfile } END { print n }') scripts" '' 'python3 examples/checks/scripts.py'
