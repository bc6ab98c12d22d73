# shellcheck shell=bash disable=SC2154,SC2016,SC2317  # examples/check, which reads this file, gives the names that stand for nothing here
# bin/dist: what it refuses, on a copy in which the programs that are tried here are said to be proved; and what it packs, from this tree, where the gate
# was passed on it, else from that copy
packed=$scratch/packed tree="$scratch/a tree"; mkdir "$packed" "$tree"
tar --exclude=out --exclude=.git --exclude=__pycache__ -cf - . | tar -xf - -C "$tree"
(cd "$tree" && git init -q && git add -A && git -c user.name=a -c user.email=a commit -qm a)
dist="env -u GATE '$tree/bin/dist'"
case_ 'a tree that was not proved is not packed' 1 '' 'dist: the gate, .ci/run, was not passed here on what is committed' "$dist $packed"
for name in lnc lnc_c lnc_exact; do
  [ -d "$tree/crates/$name" ] || continue
  given=${name^^}; given=${!given:-$(bin/$name --path)}
  mkdir -p "$tree/crates/$name/out"; cp "$given" "$tree/crates/$name/out/$name"
  "$tree/bin/stamp" "$name" "$tree/crates/$name/out/$name" >"$tree/crates/$name/out/stamp"
done
printf '%s\nno prover\nrt: ok; in a copy, where nothing was proved\n' "$("$tree/bin/stamp" tree)" >"$tree/crates/lnc/out/gate"
for changed in crates.txt bin/largest docs/LANGUAGE.md examples/check more; do
  echo >>"$tree/$changed"
  case_ "nor one in which $changed was changed" 1 '' 'dist: the tree is not as it is committed' "$dist $packed"
  (cd "$tree" && rm "$changed" && { git checkout -q "$changed" 2>/dev/null || true; })
done
mv "$tree/crates/lnc/out/lnc" "$scratch/kept"; cp /bin/true "$tree/crates/lnc/out/lnc"
case_ 'nor another program' 1 '' 'dist: lnc was not proved from these sources' "$dist $packed"
mv "$scratch/kept" "$tree/crates/lnc/out/lnc"
# (the gate's record is in the folder that it hands on, until it has passed)
gate=${GATE:-crates/lnc/out}/gate
if [ -e "$gate" ] && [ "$(head -1 "$gate")" = "$(bin/stamp tree)" ]; then
  tree=$PWD dist=$PWD/bin/dist; echo "release.sh: packed from the gate's own proved tree"
else
  gate=$tree/crates/lnc/out/gate; echo 'release.sh: packed from a copy that stands for a proved tree'
fi
version=$(sed -n 's/^## //p' CHANGELOG.md | head -1)
case_ 'a proved tree is packed' 0 "$packed/lnc-$version-x86_64-linux.tar.gz" '' "$dist $packed"
case_ 'in one way' 0 'equal' '' "mkdir $packed/again && $dist $packed/again >/dev/null && cmp $packed/*.tar.gz $packed/again/*.tar.gz && echo equal"
mkdir "$packed/empty"; tar -xzf "$packed/lnc-$version-x86_64-linux.tar.gz" -C "$packed/empty"
unpacked=$packed/empty/lnc-$version-x86_64-linux
case_ 'what is in it' 0 'CHANGELOG.md CONTRIBUTING.md Makefile PROOF README.md bin completions crates.txt docs examples libexec man' '' "echo \$(ls $unpacked | grep -v '^predicates\$')"
judge 'and the predicates, where there are some' "$(git -C "$tree" ls-files predicates 2>/dev/null | sort)" "$(cd "$unpacked" && find predicates -type f 2>/dev/null | sort)"
case_ 'PROOF says which commit, by which prover and what the gate said' 0 "commit: $(git -C "$tree" rev-parse HEAD)"$'\n'"prover: $(sed -n 2p "$gate")"$'\n'"gate: $(sed -n 3p "$gate")" '' \
  "grep -E '^(commit|prover|gate): ' $unpacked/PROOF"
# the samples, in the folder that was unpacked, where there is no toolchain: all but those that make something
samples_there() {
  passed=0 failed=0 skipped=0
  show() {
    local got
    case $2 in make\ * | cd\ * | *examples/segments/segments*) skipped=$((skipped + 1)); return ;; esac
    got=$(bash -c "$2" 2>&1 </dev/null; printf 'status %s' "$?")
    case $got in 'skipped: '*$'\n''status 0') skipped=$((skipped + 1)); echo "release.sh: $1: $2: ${got%$'\n'*}" >&2 ;; *) judge "$1: $2" "$3status 0" "$got" ;; esac
  }
  cd "$unpacked" || return
  PATH=/usr/bin:/bin
  if command -v rt >/dev/null; then echo 'rt is there'; return; fi
  shown README.md; shown examples/README.md; shown docs/TRACES.md
  [ "$passed" -gt 35 ] && echo "$failed failed"
}
judge 'the samples run where rt is not' '0 failed' "$(samples_there)"
case_ 'each command and status of README.md is in the man page' 0 '11 12' '' "echo \$(grep -A1 '^\\.TP' $unpacked/man/lnc.1 | grep -c '^.fBlnc ') \$(grep -A1 '^\\.TP' $unpacked/man/lnc.1 | grep -c '^[0-9]*\$')"
case_ 'man pages for each program' 0 "$(cd "$unpacked/libexec" && ls lnc*)" '' "for name in \$(cd $unpacked/libexec && ls lnc*); do grep -q \"^.SH SYNOPSIS\" $unpacked/man/\$name.1 && echo \$name; done"
case_ 'it is installed' 0 '+ F' '' "cd $unpacked && make -s install PREFIX='$scratch/a prefix' && cd / && env -i '$scratch/a prefix/bin/lnc' run '$scratch/a prefix/share/doc/lnc/$orient' orient '$scratch/a prefix/share/doc/lnc/$rows' | head -1"
case_ 'with completion of commands and of the names of predicates' 0 $'explain\nemit\norient' '' ". '$scratch/a prefix/share/bash-completion/completions/lnc'
  COMP_WORDS=(lnc e); COMP_CWORD=1; _lnc; printf '%s\\n' \"\${COMPREPLY[@]}\" | grep -v edges
  COMP_WORDS=(lnc run $orient o); COMP_CWORD=3; _lnc; printf '%s\\n' \"\${COMPREPLY[@]}\""
case_ 'and uninstalled' 0 '' '' "cd $unpacked && make -s uninstall PREFIX='$scratch/a prefix' && find '$scratch/a prefix' -type f"
rm -rf "$packed" "$scratch/a tree" "$scratch/a prefix"
