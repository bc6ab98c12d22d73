# shellcheck shell=bash disable=SC2154  # examples/check, which reads this file, gives the names that stand for nothing here
# the tables and the first sample of docs/LANGUAGE.md, and the sample of docs/C.md
case_ 'the tables of the language' 0 '37 sources and 5 sets of points agree' '' "python3 examples/checks/language.py $lnc $scratch"
sample() { # FILE: the first sample of a page, which is indented, from its first site type on
  awk '/^    site/ { inside = 1 } inside && /^    / { print substr($0, 5) } inside && !/^    / { exit }' "$1"
}
sample docs/LANGUAGE.md >"$scratch/language.ln"; sample docs/C.md >"$scratch/near.ln"
case_ 'the first sample of the language' 0 $'orient sites 3 stages 30\nbeyond sites 2 stages 6' '' "$lnc check $scratch/language.ln"
case_ 'the sample of C, called as the page says' 0 '1' '' "$lnc emit $scratch/near.ln >$scratch/near.c && gcc -std=gnu99 -O2 -fPIC -shared $scratch/near.c -o $scratch/libnear.so &&
  cd $scratch && python3 -c '
from ctypes import CDLL, POINTER, c_int, c_int64
f = CDLL(\"./libnear.so\").ln_near
f.argtypes, f.restype = [POINTER(c_int64)] * 2, c_int
print(f((c_int64 * 2)(7, 9), (c_int64 * 5)(0, 0, 25, 3, 4)))'"
