# shellcheck shell=bash disable=SC2154,SC2016,SC2317  # examples/check, which reads this file, gives the names that stand for nothing here
# a release where it is unpacked and where it is installed: its launchers, pages and samples, with no toolchain on the path. It is packed from a copy of this
# tree, in which the programs that are tried here are said to be proved
here=$PWD fetched=$scratch/fetched tree="$scratch/the tree" prefix="$scratch/a prefix"; mkdir "$fetched" "$tree"
tar --exclude=out --exclude=.git --exclude=__pycache__ -cf - . | tar -xf - -C "$tree"
(cd "$tree" && git init -q && git add -A && git -c user.name=a -c user.email=a commit -qm a)
for name in lnc lnc_c lnc_exact; do
  given=${name^^}; given=${!given:-$(bin/$name --path)}
  mkdir -p "$tree/crates/$name/out"; cp "$given" "$tree/crates/$name/out/$name"
  "$tree/bin/stamp" "$name" "$tree/crates/$name/out/$name" >"$tree/crates/$name/out/stamp"
done
printf '%s\nno prover\nrt: ok; in a copy, where nothing was proved\n' "$("$tree/bin/stamp" tree)" >"$tree/crates/lnc/out/gate"
env -u GATE "$tree/bin/dist" "$fetched" >/dev/null
version=$(sed -n 's/^## //p' CHANGELOG.md | head -1); archive=lnc-$version-x86_64-linux
# (all folders of the path but the one that has rt)
plain_path=$(for folder in ${PATH//:/ }; do [ -e "$folder/rt" ] || printf '%s:' "$folder"; done)/usr/bin:/bin
there() { # NAME STATUS OUT ERR COMMAND, where no toolchain is
  case_ "$1" "$2" "$3" "$4" "unset LNC LNC_C LNC_EXACT; PATH='$plain_path'; $5"
}
case_ 'its checksum is beside it' 0 "$archive.tar.gz: OK" '' "cd $fetched && sha256sum -c $archive.tar.gz.sha256 && tar -xzf $archive.tar.gz"
cd "$fetched/$archive" || return
there 'no toolchain is there' 1 '' '' 'command -v rt'
there 'PROOF has the checksums of the programs' 0 'libexec/lnc: OK
libexec/lnc_c: OK
libexec/lnc_exact: OK' '' "sed -n 's/^sha256 of \\(.*\\): \\(.*\\)/\\2  \\1/p' PROOF | sha256sum -c"
for name in lnc lnc_c lnc_exact; do
  there "$name --version" 0 "$name $version, proved" '' "bin/$name --version"
  there "$name --help" 0 'that of a checkout' '' "bin/$name --help | cmp - <('$here/bin/$name' --help) && echo that of a checkout"
done
# the launcher is the program, but for these: words, streams, statuses
same() { # NAME WORD..
  local name=$1 wanted got; shift
  wanted=$(libexec/lnc "$@" 2>&1 <"$orient"; printf 'status %s' "$?"); got=$(bin/lnc "$@" 2>&1 <"$orient"; printf 'status %s' "$?")
  judge "the launcher: $name" "$wanted" "$got"
}
same 'no words'
same 'an unknown word' draw
same '--help among others' check --help
same 'a word that is no text' check $'\xff'
same 'a blank, a quote and a star' check "it's * a file"
same 'standard input' check /dev/stdin
same 'a long text' list examples/squares/squares.ln
same 'a refused source' check examples/limits/too_heavy.ln
same 'six signs' run "$orient" orient "$rows"
there 'the launcher: a file that may not grow' 7 '' '' '(ulimit -f 1; exec bin/lnc list examples/insphere/insphere.ln) >../most'
there 'the launcher: by links, one of another name' 0 $'orient sites 3 stages 30\nlnc '"$version, proved" '' "ln -s $PWD/bin/lnc ../link; ln -s link ../another; (cd .. && ./another check $archive/$orient && ./another --version)"
there 'the launcher: by a link to lnc_exact' 0 "lnc_exact $version, proved" '' "ln -s $PWD/bin/lnc_exact ../lnc_exact; ../lnc_exact --version"
there 'no page speaks of a checkout' 1 '' '' "grep -n 'in a checkout\\|bin/prove\\|bin/test' README.md"
dead_links() { # in the pages of this folder
  python3 - <<'PYTHON'
import re, pathlib
for page in pathlib.Path().glob("**/*.md"):
    for target in re.findall(r"\]\(([^)\s]+)\)", page.read_text()):
        if "://" not in target and not (page.parent / (target.partition("#")[0] or page.name)).exists():
            print(page, target)
PYTHON
}
judge 'each link of its pages leads somewhere' '' "$(dead_links)"
# every command that its pages show
pages() { # FOLDER
  # (examples/check judges by the program that it tries; here the pages' own words run)
  local before=$minutes; minutes=10
  cd "$1" || return
  PATH=$plain_path; unset LNC LNC_C LNC_EXACT
  show() {
    local got; got=$(timeout -k 5 "${minutes}m" bash -c "$2" 2>&1 </dev/null; printf 'status %s' "$?")
    case $got in 'skipped: '*$'\n''status 0') skipped=$((skipped + 1)); echo "install.sh: $1: $2: ${got%$'\n'*}" >&2 ;; *) judge "$1: $2" "$3status 0" "$got" ;; esac
  }
  # (how many commands a page has is told by the page)
  counted() { :; }
  passed=0 failed=0 skipped=0
  for page in README.md examples/README.md docs/TRACES.md predicates/README.md; do shown "$page"; done
  minutes=$before
  [ "$passed" -gt 40 ] || echo "only $passed"
  echo "$failed failed"
}
there 'it is installed' 0 '' '' "make -s install PREFIX='$prefix'"
judge 'each link of the installed pages leads somewhere' '' "$(cd "$prefix/share/doc/lnc" && dead_links)"
judge 'every command of the installed pages' '0 failed' "$(pages "$prefix/share/doc/lnc")"
there 'the programs and tools are on the path' 0 "lnc_exact $version, proved
orient 2^52
p,p.x,p.y,q,q.x,q.y,r,r.x,r.y
15153657280,-2,2,17350228593,-2,2,27849883114,1,1,21517859123,2,-2" '' "PATH='$prefix/bin':\$PATH; cd / && E='$prefix/share/doc/lnc/examples'
  lnc_exact --version && lnc_largest \"\$E/orientation/orient.ln\" && lnc_why \"\$E/orientation/orient.ln\" orient && lnc_rows \"\$E/incircle/incircle.ln\" incircle 1 8 | tail -1"
there 'lnc_why finds the page of the language' 1 'write: another name: `left_of` (for `site a { x: 0 .. 9; } predicate left-of(p: a) { sign p.x; }`)' '' \
  "printf 'site a { x: 0 .. 9; } predicate a-b(p: a) { sign p.x; }' >../it.ln; '$prefix/bin/lnc_why' ../it.ln | grep ^write"
# a copy of the samples elsewhere takes lnc and lnc_exact from the path, or from LNC and LNC_EXACT
cp -R "$prefix/share/doc/lnc/examples" ../samples; find ../samples -name '*.o' -delete
for sample in 'make -s -C mesh clean delaunay' 'make -s -C languages clean liborient.so' 'make -s -C tetrahedra delaunay3' 'hull/draw' "make -s -C cgal clean plane.o" \
  'cmake -S languages -B made' 'cmake --build made' 'large orientation/orient.ln orient orientation/rows.csv'; do
  there "elsewhere: $sample" 0 '' '' "cd ../samples && PATH='$prefix/bin':.:\$PATH && $sample >said"
done
there 'elsewhere, by LNC and LNC_EXACT' 0 '' '' "cd ../samples && export LNC='$prefix/bin/lnc' LNC_EXACT='$prefix/bin/lnc_exact' && make -s -C mesh clean delaunay && hull/draw >said && ./large orientation/orient.ln orient orientation/rows.csv >said"
there 'the man page has rows, places, faults of rows, kinds and examples' 0 '3 3 4 8' '' "for words in 'SH (ROWS|SOURCES|EXAMPLES)' 'fB[+] [F0K]' 'fB! (fields|number|range|index)' 'fB(lexical|syntax|limit|name|bound|terms|zero|stages).fR'; do
  s=\"\$s\${s:+ }\$(grep -cE \"^[.\\\\]\$words\" man/lnc.1)\"; done; echo \$s"
there 'that of lnc_exact has its own statuses' 0 '0 1 2 6 7 8 9' '' "echo \$(grep -A1 '^\\.TP' man/lnc_exact.1 | grep '^[0-9]*\$')"
if command -v man >/dev/null; then
  there 'the manual is laid out without a warning' 0 '' '' "for page in man/*.1; do MANWIDTH=80 man --warnings -E UTF-8 -l -Tutf8 -Z \$page >/dev/null || exit 1; done"
else
  skip 1 'the manual is laid out without a warning' "man isn't installed"
fi
if command -v zsh >/dev/null; then
  cat >../zsh <<'ZSH'
compadd() { if [[ $1 == -a ]]; then print -l -- ${(P)2}; else print -- $@; fi }
_files() { print files }
complete_() { words=(lnc $@ ''); CURRENT=$#words; source $file }
file=$1/share/zsh/site-functions/_lnc; cd $1/share/doc/lnc
complete_; complete_ run examples/mesh/mesh.ln; complete_ run examples/mesh/mesh.ln orient; complete_ product examples/sides/sides.ln r_side
ZSH
  there 'completion for zsh' 0 $'check run graded product edges explain audit gen emit list verify\norient\nincircle\nfiles\nr_side\ns_side\nfiles' '' "zsh -f ../zsh '$prefix'"
else
  skip 1 'completion for zsh' "zsh isn't installed"
fi
if command -v fish >/dev/null; then
  there 'completion for fish' 0 $'edges\nemit\nexplain\norient' '' "cd '$prefix/share/doc/lnc' && for line in 'lnc e' 'lnc run $orient o'; do
    HOME=$scratch fish --no-config -c \"source '$prefix/share/fish/vendor_completions.d/lnc.fish'; complete -C '\$line'\" | cut -f1 | sort; done"
else
  skip 1 'completion for fish' "fish isn't installed"
fi
there 'and uninstalled' 0 '' '' "make -s uninstall PREFIX='$prefix' && find '$prefix' ! -type d"
cd "$here" || return
rm -rf "$fetched" "$tree" "$prefix"
