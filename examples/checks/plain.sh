# shellcheck shell=bash disable=SC2154  # examples/check, which reads this file, gives the names that stand for nothing here
# random predicates with sums, powers, params, equal parts and lets, each on a row for each order of four sites, by a plain program of the
# definitions that shares no code with the product: the exact lines in both orders of infinitesimals, F where the filter decides, and the refusal
# of a predicate that is 0 everywhere. What is wanted counts them: how many rows the filter decides, each stage, and nothing
drawn() { # SEED COUNTS
  case_ "random predicates, drawn from $1" 0 "$2" '' "python3 examples/checks/plain.py random $program $scratch $1 30"
}
drawn 1990 '89 predicates, 74 with equal parts, 40 that differ by total degree, 1 that are 0 everywhere
rows by run: 18 -, 361 F, 1159 at 0, 311 at 1, 127 at 2, 56 at 3, 39 at 4, 16 at 5, 17 at 6, 15 at 7, 7 at 8, 8 at 9, 2 at 10
rows by graded: 18 -, 361 F, 1159 at 0, 311 at 1, 92 at 2, 81 at 3, 46 at 4, 21 at 5, 17 at 6, 12 at 7, 6 at 8, 4 at 9, 5 at 10, 3 at 15'
drawn 2026 '88 predicates, 76 with equal parts, 33 that differ by total degree, 2 that are 0 everywhere
rows by run: 18 -, 440 F, 1100 at 0, 295 at 1, 132 at 2, 40 at 3, 39 at 4, 19 at 5, 18 at 6, 3 at 7, 6 at 8, 1 at 10, 1 at 11
rows by graded: 18 -, 440 F, 1100 at 0, 295 at 1, 92 at 2, 66 at 3, 47 at 4, 30 at 5, 11 at 6, 1 at 7, 6 at 8, 4 at 9, 1 at 10, 1 at 11'
