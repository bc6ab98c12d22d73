# shellcheck shell=bash disable=SC2154  # examples/check, which reads this file, gives the names that stand for nothing here
# the checks of the repository by themselves find what is wrong: each on a copy in which one fault was planted, of which it has to say this
copy=$scratch/planted; mkdir "$copy"
tar --exclude=out --exclude=.git --exclude=__pycache__ -cf - README.md CONTRIBUTING.md CHANGELOG.md crates.txt HANDLES .ci bin bench crates docs examples predicates release | tar -xf - -C "$copy"
plant() { # WHAT SAID CHECK FILE COMMAND: what a check says of a file that the command changes, with the line that it says it by
  local said file=$copy/$4
  cp -p "$file" "$scratch/whole"
  (cd "$copy" && eval "$5")
  said=$(cd "$copy" && $3 2>&1)
  cp -p "$scratch/whole" "$file"
  judge "found: $1" "$2" "$(grep -oF -m1 -- "$2" <<<"$said" || printf '%s' "$said")"
}
first() { grep -m1 "$1" "$copy/$2"; }
crate=$(sed -n 's/^\([a-z][a-z_0-9]*\):.*/\1/p' crates.txt | head -1)
edit=$(find crates/*/*must-fail -name '*.edit' | LC_ALL=C sort | head -1)
tested=$(sed -n 's|/tests .*||p' examples/checks/counts.txt | head -1)
tests=$(python3 examples/checks/counts.py of "$tested/tests")
module=$(grep -rl '^#\[test\]' "crates/$tested/src" | LC_ALL=C sort | head -1); name=${module##*/}; name=${name%.rt}
lemma=$(find crates/*/proofs -name '*Laws.antt' | LC_ALL=C sort | head -1)
spec=$(find crates/*/specs -name '*.antt' ! -name Lib.antt | LC_ALL=C sort | head -1)
checks='python3 examples/checks'

plant 'a line of the list of crates that is not the one made' 'docs/MAP.md: <!-- from crates.txt: what each crate does -->' "$checks/crates.py compare" docs/MAP.md "sed -i 's/^- $crate: /&it /' docs/MAP.md"
plant 'a crate without a line that says what it does' "crates.txt: $crate lacks a line" "$checks/crates.py compare" crates.txt "sed -i '0,/^# proved: /s//# shown: /' crates.txt"
plant 'a link to no file' 'README.md: no file docs/NOSUCH.md' "$checks/docs.py" README.md "echo '[a](docs/NOSUCH.md)' >>README.md"
plant 'a link to no heading' 'docs/FAQ.md: no heading C.md#nosuch' "$checks/docs.py" docs/FAQ.md "echo '[a](C.md#nosuch)' >>docs/FAQ.md"
plant 'a name that is in no crate' "docs/MAP.md: no nosuch_name in $crate" "$checks/docs.py" docs/MAP.md "echo '\`$crate::nosuch_name\`' >>docs/MAP.md"
plant 'a file of definitions that is not there' "docs/MAP.md: no file $crate specs/Nosuch.antt" "$checks/docs.py" docs/MAP.md "echo '($crate, specs/Nosuch.antt)' >>docs/MAP.md"
plant 'an identifier that is in no crate' 'docs/MAP.md: no NosuchName in the crates' "$checks/docs.py" docs/MAP.md "echo '\`NosuchName\`' >>docs/MAP.md"
plant 'a figure that is not that of the table' 'README.md: incircle by predicates/ takes' "$checks/docs.py" README.md "sed -i 's/.incircle. takes /&1/' README.md"
plant 'a line of code that is too long' "$spec: line 1 has 16" "$checks/docs.py" "$spec" "sed -i '1s/.*/$(printf '%0161d' 0 | tr 0 -)/' $spec"
plant 'a lemma without a line' "$(wc -l <"$lemma" | awk '{ print "line " $1 + 2 }'): nosuch has no line of its own" "$checks/proofs.py" "$lemma" "printf '\npub nosuch : \xe2\x8a\xa4\n' >>$lemma"
plant 'a lemma that nothing names' "$(wc -l <"$lemma" | awk '{ print "line " $1 + 3 }'): nothing names nosuch" "$checks/proofs.py" "$lemma" "printf '\n-- It.\npub nosuch : \xe2\x8a\xa4\n' >>$lemma"
plant 'a clause of lnc that the theorem does not have' 'the table of the clauses of lnc: headline is missing' "$checks/laws.py" docs/THEOREM.md "sed -i '/^| .headline. | .run. /d' docs/THEOREM.md"
plant 'a crate whose promises are not there' "$crate: there is no entry **$crate**" "$checks/laws.py" docs/MAP.md "sed -i 's/\*\*$crate\*\*/other/g' docs/MAP.md"
plant 'a clause that is none' 'has no clause nosuch' "$checks/laws.py" docs/MAP.md "sed -i '0,/^\(- \*\*[a-z_]*\*\*.*\`[a-z_]*\`: \`\)[a-z_]*\`/s//\1nosuch\`/' docs/MAP.md"
plant 'figures of the theorem that are other ones' 'docs/THEOREM.md has other figures than bin/statement' 'bin/statement --compare' docs/THEOREM.md "sed -i 's/^| all | /&1/' docs/THEOREM.md"
plant 'figures of edits that are other ones' 'README.md has other figures than bin/edits kept' "$checks/matrix.py --compare" README.md "sed -i 's/has to refuse /&1/' README.md"
plant 'an edit that cannot be applied' "$edit: an old text isn't there once" "$checks/edits.py compare" "$edit" "sed -i 's/^old: .*/&nosuch/' $edit"
plant 'edits that were not tried on these sources' "$(cut -d/ -f2 <<<"$edit"): its edits weren't all tried on these sources" "$checks/edits.py compare" "$(dirname "$(dirname "$edit")")/src/lib.rt" "echo 'mod nosuch;' >>$(dirname "$(dirname "$edit")")/src/lib.rt"
plant 'an edit that is gone' "$(cut -d/ -f2 <<<"$edit") has (" "$checks/counts.py compare" "$edit" "rm $edit"
plant 'a command of a document that is gone' "README.md has (" "$checks/counts.py compare" README.md "sed -i '0,/^[$] /s///' README.md"
plant 'a file of cases that is gone' 'words.sh is gone' "$checks/counts.py compare" examples/checks/words.sh 'rm examples/checks/words.sh'
plant 'a test that is gone' "$tested/tests has ($((tests - 1)),), and ($tests,) are listed" "$checks/counts.py compare" "$module" "sed -i '0,/^#\[test\]/s///' $module"
plant 'a module of tests that is gone' "$tested/tests has (" "$checks/counts.py compare" "crates/$tested/src/lib.rt" "sed -i '/^mod $name;/d' crates/$tested/src/lib.rt; mv $module $scratch/module"
mv "$scratch/module" "$copy/$module"
plant 'a file that is in no module' "$module is in no module" "$checks/counts.py compare" "crates/$tested/src/lib.rt" "sed -i '/^mod $name;/d' crates/$tested/src/lib.rt"
plant 'a file that an operation changes and no table names' 'CONTRIBUTING.md: <!-- from the sources: an operation of expressions -->' "$checks/operation.py compare" CONTRIBUTING.md "sed -i '0,/^| ln_tree | expr /s//| ln_tree | other /' CONTRIBUTING.md"
meaning=$(sed -n 's/^abbrev pub \([a-z_]*\) : .*/\1/p' "$spec" | grep -vxFf examples/checks/twins.txt | head -1); other=$(find crates/ln_trace/specs crates/ln_verify/specs -name '*.antt' ! -name Lib.antt | LC_ALL=C sort | head -1)
plant 'a definition under the name of one of another crate' "$meaning is defined in $crate and $(cut -d/ -f2 <<<"$other")" "$checks/twins.py compare" "$other" "printf '\npub $meaning : \xe2\x8a\xa4\n' >>$other"
plant 'a list of names that is longer than it need be' 'nosuch is in examples/checks/twins.txt' "$checks/twins.py compare" examples/checks/twins.txt 'echo nosuch >>examples/checks/twins.txt'
plant 'a script that takes CDPATH from its caller' 'bin/stamp: its first command' "$checks/scripts.py" bin/stamp "sed -i '/^unset /d' bin/stamp"
code=$(find crates/*/src -name '*.rt' | LC_ALL=C sort | head -1)
plant 'a refusal of an allocation under another name' 'use std::alloc::AllocError as Full;: a refusal under another name' "$checks/refused.py compare" "$code" "echo 'use std::alloc::AllocError as Full;' >>$code"
plant 'a refusal of an allocation that is made' 'fn full() -> AllocError { > AllocError' "$checks/refused.py compare" "$code" "printf 'fn full() -> AllocError {\n    AllocError\n}\n' >>$code"
plant 'an arm that leads to one' "examples/checks/refused.txt doesn't have" "$checks/refused.py compare" "$(sed -n 's/: .*reported_by(&.*//p' examples/checks/refused.txt | tail -1)" "sed -i 's/^\( *\)Err(e) => Err(NoMemory::/\1Err(_) => Err(NoMemory::/' $(sed -n 's/: .*reported_by(&.*//p' examples/checks/refused.txt | tail -1)"

# tests that did not run, by what rt says of those that did
python3 - <<'PY' >"$scratch/ran"
import re
for name, number in re.findall(r"^(\w+)/tests (\d+)$", open("examples/checks/counts.txt").read(), flags=re.M):
    print(f"tests: {number}\ntest result: ok. {number} passed; 0 failed; 0 ignored; 0 filtered out\nrt: {name}: its tests passed")
PY
all=$(awk -F'[ ;]' '/^test result/ { n += $4 } END { print n }' "$scratch/ran")
case_ 'each test ran' 0 "$all tests ran" '' "python3 examples/checks/counts.py ran $scratch/ran"
case_ 'found: a test that did not run' 0 "$tested/tests: $((tests - 1)) ran, and $tests are listed"$'\n'"$((all - 1)) tests ran" '' \
  "sed '0,/ok. $tests passed/s//ok. $((tests - 1)) passed/' $scratch/ran >$scratch/ran_less; python3 examples/checks/counts.py ran $scratch/ran_less"
case_ 'found: a crate whose tests did not run' 0 "$tested/tests: 0 ran, and $tests are listed"$'\n'"$((all - tests)) tests ran" '' \
  "sed '/rt: $tested: its tests/d' $scratch/ran >$scratch/ran_less; python3 examples/checks/counts.py ran $scratch/ran_less"
case_ 'found: a test that was left out' 0 "$tested/tests: 0 ran, and $tests are listed"$'\n'"$((all - tests)) tests ran" '' \
  "sed '0,/0 ignored/s//1 ignored/' $scratch/ran >$scratch/ran_less; python3 examples/checks/counts.py ran $scratch/ran_less"
rm -rf "$copy"
