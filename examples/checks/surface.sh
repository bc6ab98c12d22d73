# shellcheck shell=bash disable=SC2154  # examples/check, which reads this file, gives the names that stand for nothing here
# the public surface that is kept: crates, the longest chain of them, and each call and type with its signature and the test that uses it. The check finds
# a call that has another name, one that is gone, an argument of another type, a test that isn't there, a chain of nine: each in a copy
entries=$(grep -c '^ln_' examples/checks/surface.txt)
shows=$(sed -n 's/^ln_.* | //p' examples/checks/surface.txt | grep -o 'test [a-z_0-9]*' | sort -u | wc -l)
case_ 'the public surface that is kept' 0 "27 crates, $entries entries, $shows tests" '' 'python3 examples/checks/surface.py compare'
copy=$scratch/surface; mkdir "$copy"
tar --exclude=out -cf - crates.txt docs/DECISIONS.md examples/checks crates | tar -xf - -C "$copy"
differs() { # WHAT SAID FILE COMMAND: what the check says of a file that the command changes
  local said
  cp -p "$copy/$3" "$scratch/whole"
  (cd "$copy" && eval "$4")
  said=$(cd "$copy" && python3 examples/checks/surface.py compare)
  cp -p "$scratch/whole" "$copy/$3"
  judge "found: $1" "$2" "$(grep -oF -m1 -- "$2" <<<"$said" || printf '%s' "$said")"
}
heft=$(grep -rl '^pub fn heft(' crates/ln_poly/src)
differs 'a call of another name' 'ln_poly: heft is gone' "$heft" "sed -i 's/^pub fn heft(/pub fn hefts(/' $heft"
differs 'an argument of another type' 'ln_poly: heft is fn heft(f: &Poly, s: Shape)' "$heft" "sed -i '/^pub fn heft(/s/s: &Shape/s: Shape/' $heft"
differs 'a variant that is gone' 'ln_bound: Width is enum Width { W64 }' "$(grep -rl '^pub enum Width ' crates/ln_bound/src)" "sed -i '/^    W128,/d' $(grep -rl '^pub enum Width ' crates/ln_bound/src)"
differs 'a crate that is gone' 'the crate ln_nest is gone' crates.txt "sed -i '/^ln_nest:/d' crates.txt"
differs 'a chain of nine' 'a chain of 9 crates, where 8 are the most' crates.txt "echo 'lnc_nine: lnc' >>crates.txt"
differs 'a crate of a command under another one' 'ln_verify depends on ln_edges, which is for ln_top alone' crates.txt "sed -i 's/^ln_verify: /&ln_edges /' crates.txt"
test=$(grep -o 'test [a-z_0-9]*$' examples/checks/surface.txt | head -1); test=${test#test }
source=$(grep -rl "fn $test(" crates/ln_trial*/src)
differs 'a test that is gone' "names the test $test, which isn't there" "$source" "sed -i 's/fn $test(/fn other_$test(/' $source"
differs 'an entry that nothing shows' 'ln_poly: heft has neither a test nor a decision' examples/checks/surface.txt "sed -i 's/^\(ln_poly | heft | .* | \).*/\1nothing/' examples/checks/surface.txt"
