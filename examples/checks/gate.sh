# shellcheck shell=bash disable=SC2154  # examples/check, which reads this file, gives the names that stand for nothing here
# the gate, .ci/run, in a small checkout with a false rt, a false bin/edits and a false examples/check: how it ends, what it hands to its parts, and
# when it leaves the record by which bin/dist packs
home=$scratch/gate; mkdir -p "$home/.ci" "$home/bin" "$home/examples" "$home/crates/lnc/out" "$scratch/tools" "$scratch/room"
cp .ci/run "$home/.ci"; cp bin/stamp "$home/bin"; echo 'lnc:' >"$home/crates.txt"; echo out/ >"$home/.gitignore"
printf '#!/bin/sh\n[ ! -e out/no_edits ]\n' >"$home/bin/edits"
cat >"$home/examples/check" <<'CHECK'
#!/bin/sh
[ "$(cat "$GATE/gate" 2>/dev/null)" = "$(git rev-parse 'HEAD^{tree}'; echo 'logic 0'; echo 'rt: ok; all')" ] && grep -q '1 passed' "$GATE/said" && [ -d "$TRIED" ] && echo handed
[ -e crates/lnc/out/gate ] && echo 'a record is there'
[ ! -e out/changes ] || echo >>crates.txt
[ ! -e out/no_examples ] || exit 3
echo 'examples: 1 passed, 0 failed'
CHECK
# (a kit of a letter that nothing names)
cat >"$scratch/tools/rt" <<'RT'
#!/bin/sh
case $1 in version) echo 'rattle-kit-99z logic 0' ;; ci) [ ! -e out/no_proofs ] || exit 1; echo 'rt: ok; all'; echo '1 passed, 0 failed' ;; esac
RT
chmod +x "$home/bin/edits" "$home/examples/check" "$scratch/tools/rt"
(cd "$home" && git init -q && git add -A && git -c user.name=a -c user.email=a commit -qm a); mkdir "$home/out"
gate() { # WHAT: runs it where this is so; its status, what it put but for its times, whether a record is there, and how many of its folders
  local said status=0
  rm -f "$home"/out/*; [ -z "$1" ] || : >"$home/out/$1"
  said=$(PATH=$scratch/tools:$PATH TMPDIR=$scratch/room "$home/.ci/run" 2>&1) || status=$?
  git -C "$home" checkout -q crates.txt
  echo "$status: $(grep -v '^rt' <<<"$said" | paste -sd,): $([ ! -e "$home/crates/lnc/out/gate" ] || echo record)$(find "$scratch/room" -mindepth 1 | wc -l)"
}
passed_all='1 passed, 0 failed,handed,examples: 1 passed, 0 failed'
judge 'a gate that passes leaves a record' "0: $passed_all: record0" "$(gate '')"
judge 'which names the tree, the logic and what rt said' "$(git -C "$home" rev-parse 'HEAD^{tree}') logic 0 rt: ok; all" "$(paste -sd' ' "$home/crates/lnc/out/gate")"
judge 'one whose examples fail leaves none, not that of before either' '3: 1 passed, 0 failed,handed: 0' "$(gate no_examples)"
judge 'nor does one whose edits fail' '1: 1 passed, 0 failed: 0' "$(gate '' >/dev/null; gate no_edits)"
judge 'nor one whose proofs fail' '1: : 0' "$(gate '' >/dev/null; gate no_proofs)"
judge 'nor one in which a file changes' "0: $passed_all: 0" "$(gate changes)"
echo >"$home/more"
judge 'nor one in which a file is not committed' '0: 1 passed, 0 failed,examples: 1 passed, 0 failed: 0' "$(gate '')"
