# shellcheck shell=bash disable=SC2154  # examples/check, which reads this file, gives the names that stand for nothing here
# out of memory comes from a refused allocation: the places where one comes in, each with the arm that leads there, are those that were looked at
case_ 'the places at which a refused allocation comes in' 0 "$(grep -vc '^#' examples/checks/refused.txt) places" '' 'python3 examples/checks/refused.py compare'
