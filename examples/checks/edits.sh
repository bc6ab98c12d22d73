# shellcheck shell=bash disable=SC2154  # examples/check, which reads this file, gives the names that stand for nothing here
# the edits: that bin/edits tried them on these very sources, and that each edit can be applied
case_ 'edits were refused on these sources, and each edit can be applied' 0 "$(find crates/*/*must-fail -name '*.edit' | wc -l) edits" '' 'python3 examples/checks/edits.py compare'
# bin/edits, in a small checkout of its own with a false rt, which says how the edits of one crate came out, and then works on
home=$scratch/edits
mkdir -p "$home/bin" "$home/examples/checks" "$home/tools"
cp bin/edits "$home/bin"; cp examples/checks/edits.py examples/checks/sources.py "$home/examples/checks"; : >"$home/HANDLES"
printf 'low:\nhigh: low\n' >"$home/crates.txt"
for name in low high; do
  mkdir -p "$home/crates/$name/src" "$home/crates/$name/also-must-fail"
  printf 'pub fn one() -> u8\n    ensures { result ≡ 1 }\n{\n    1\n}\n' >"$home/crates/$name/src/lib.rt"
  printf 'file: src/lib.rt\nold:     1\nnew:     2\n' >"$home/crates/$name/also-must-fail/two.edit"
done
cat >"$home/tools/rt" <<'RT'
#!/bin/sh
case ${1:-} in '') echo 'rt ci NAME..'; exit 2 ;; version) echo 'logic 0'; exit ;; esac
echo 'must-fail low/two.edit: refused, as it must be: note: src/lib.rt:4:5: it is not proved (`returns`)'
echo $$ >"$RUNS"; exec sleep 100
RT
chmod +x "$home/tools/rt"
RUNS=$home/runs TRIED= PATH=$home/tools:$PATH "$home/bin/edits" low high >"$home/said" 2>&1 & tries=$!
for _ in {1..100}; do grep -qs refused "$home/said" && break; sleep 0.2; done
began=$SECONDS; kill "$tries"; wait "$tries"; status=$?
judge 'a signal ends bin/edits at once' '130 yes' "$status $([ $((SECONDS - began)) -le 3 ] && echo yes)"
judge 'and what it started' gone "$(kill -0 "$(cat "$home/runs")" 2>/dev/null || echo gone)"
judge 'what was tried is kept, with the function and the goal' $'edits 1\ntwo one returns' "$(sed '/^sources\|^logic/d' "$home/crates/low/also-must-fail/tried")"
judge 'and nothing of the others' none "$(cat "$home/crates/high/also-must-fail/tried" 2>/dev/null || echo none)"
