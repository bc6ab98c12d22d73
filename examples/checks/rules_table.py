"""What `verify` writes for listings that were written by hand and changed in one place, as a table for said.py: each rule broken alone, lines that
move, numbers that change, and the limits on polynomials and stacks.

A change is the line where it begins, from 1, how many lines go there, the text that comes, and the first line that fails then, 0 where none does. The
lines are worked out by hand, and those of the tables of deletions, doublings, exchanges and random numbers by a judge that was written from the rules
alone."""
from commands_table import CIRCLE, FAR, NOTHING_ADDED, ORIENT, SQUARES

# The difference of two squares over a range in which all powers are small.
UNITS = """site num { t: -1 .. 1; }
predicate s(a: num, b: num) { sign a.t^2 - b.t^2; }
"""
# A listing of the squares, version 1.
BOUNDS = """listing 1
predicate s
filter
input 0 0 10 0
set 64
get 64 0 10 0
get 64 0 10 0
mul 0 100 0
input 1 0 10 0
set 64
get 64 0 10 0
get 64 0 10 0
mul 0 100 0
sub 0 200 0
decide
block 0
input 0 10
input 0 10
mul64 100
input 1 10
input 1 10
mul64 100
sub64 200
end
block 1 0^1
push 2 2
input 0 10
mul64 20
end
block 2 0^2
push 1 1
end
block 3 1^1
push -2 2
input 1 10
mul64 20
end
block 4 1^2
push -1 1
end
order 0 1 : 0 1 2
order 1 0 : 0 3 4
done
"""
# The same, version 2.
RANGES = """listing 2
predicate s
filter
input 0 0 10 0
set 64
get 64 0 10 0
get 64 0 10 0
mul 0 100 0
input 1 0 10 0
set 64
get 64 0 10 0
get 64 0 10 0
mul 0 100 0
sub 0 200 0
decide
block 0
input 0 -10 10
input 0 -10 10
mul64 -100 100
input 1 -10 10
input 1 -10 10
mul64 -100 100
sub64 -200 200
end
block 1 0^1
push 2 2 2
input 0 -10 10
mul64 -20 20
end
block 2 0^2
push 1 1 1
end
block 3 1^1
push -2 -2 -2
input 1 -10 10
mul64 -20 20
end
block 4 1^2
push -1 -1 -1
end
order 0 1 : 0 1 2
order 1 0 : 0 3 4
done
"""
# A listing of the orientation, version 2.
TURNS = """listing 2
predicate orient
filter
input 0 0 1000 0
input 4 0 1000 0
sub 0 2000 0
input 3 0 1000 0
input 5 0 1000 0
sub 0 2000 0
mul 0 4000000 0
input 1 0 1000 0
input 5 0 1000 0
sub 0 2000 0
input 2 0 1000 0
input 4 0 1000 0
sub 0 2000 0
mul 0 4000000 0
sub 0 8000000 0
decide
block 0
input 0 -1000 1000
input 4 -1000 1000
sub64 -2000 2000
input 3 -1000 1000
input 5 -1000 1000
sub64 -2000 2000
mul64 -4000000 4000000
input 1 -1000 1000
input 5 -1000 1000
sub64 -2000 2000
input 2 -1000 1000
input 4 -1000 1000
sub64 -2000 2000
mul64 -4000000 4000000
sub64 -8000000 8000000
end
block 1 1^1
input 4 -1000 1000
input 2 -1000 1000
sub64 -2000 2000
end
block 2 0^1
input 3 -1000 1000
input 5 -1000 1000
sub64 -2000 2000
end
block 3 3^1
input 0 -1000 1000
input 4 -1000 1000
sub64 -2000 2000
end
block 4 0^1 3^1
push 1 1 1
end
block 5 5^1
input 2 -1000 1000
input 0 -1000 1000
sub64 -2000 2000
end
block 6 0^1 5^1
push -1 -1 -1
end
block 7 2^1
input 5 -1000 1000
input 1 -1000 1000
sub64 -2000 2000
end
block 8 1^1 2^1
push -1 -1 -1
end
block 9 2^1 5^1
push 1 1 1
end
block 10 4^1
input 1 -1000 1000
input 3 -1000 1000
sub64 -2000 2000
end
block 11 1^1 4^1
push 1 1 1
end
block 12 3^1 4^1
push -1 -1 -1
end
order 0 1 2 : 0 1 2 3 4
order 0 2 1 : 0 1 2 5 6
order 1 0 2 : 0 3 7 1 8
order 1 2 0 : 0 3 7 5 9
order 2 0 1 : 0 5 10 1 11
order 2 1 0 : 0 5 10 3 12
done
"""
SCALED = """param c: 0 .. 5;
site num { t: -10 .. 10; }
predicate z(a: num, c: param) { sign c * a.t; }
"""
# A listing of it, version 1, without a filter.
SCALED_BOUNDS = """listing 1
predicate z
nofilter
block 0
input 0 10
input 1 5
mul64 50
end
block 1 0^1
input 1 5
end
order 0 : 0 1
done
"""
# A variable that is always 0.
NOUGHT = """site num { t: 0 .. 0; }
predicate w(a: num) { sign a.t; }
"""
# A listing of it, version 2.
NOUGHT_RANGES = """listing 2
predicate w
nofilter
block 0
input 0 0 0
end
block 1 0^1
push 1 1 1
end
order 0 : 0 1
done
"""
# The same of version 1, in which a bound of an input is at least 1: line 5 fails.
NOUGHT_BOUNDS = """listing 1
predicate w
nofilter
block 0
input 0 0
end
block 1 0^1
push 1 1
end
order 0 : 0 1
done
"""
# Both predicates, one after the other.
BOTH = """site num { t: -10 .. 10; }
predicate s(a: num, b: num) { sign a.t^2 - b.t^2; }
predicate t(a: num, b: num) { sign b.t^2 - a.t^2; }
"""
OPPOSITE = """site num { t: -10 .. 10; }
predicate s(a: num, b: num) { sign b.t^2 - a.t^2; }
"""
# Each rule of the lines that both versions share: broken alone, or just met.
RULES = [
    (2, 1, "predicate t", 2),  # another name
    (15, 0, "push 1 0 1 0\nmul 0 200 0", 0),
    (15, 0, "push 1 0 0 0\nmul 0 200 0", 15),  # H of a push
    (15, 0, "push -1 0 0 0\nmul 0 200 0", 15),  # H of a push
    (15, 0, "cut 1 1 100 1\npush 4 1 2 1\npush 4 1 2 1\nsub 1 4 2\nadd 1 104 3", 0),
    (15, 0, "cut 1 1 100 1\npush 5 1 2 1\npush 5 1 2 1\nsub 1 4 2\nadd 1 104 3", 0),  # a push is truncated
    (15, 0, "cut 1 1 100 1\npush 4 1 1 1\npush 4 1 2 1\nsub 1 4 2\nadd 1 104 3", 16),  # H of a truncated push
    (15, 0, "cut 1 1 100 1\npush 4 1 2 0\npush 4 1 2 1\nsub 1 4 2\nadd 1 104 3", 16),  # E of a truncated push
    (15, 0, "cut 1 1 100 1\npush 4 1 2 1\npush 4 2 1 1\nsub 1 4 2\nadd 1 104 3", 18),  # K of the operands of sub
    (15, 0, "cut 1 1 100 1\npush 4 1 2 1\npush 4 1 2 1\nsub 2 4 2\nadd 1 104 3", 18),  # K of sub
    (15, 0, "cut 1 1 100 1\npush 4 1 2 1\npush 4 1 2 1\nsub 1 3 2\nadd 1 104 3", 18),  # H of sub
    (15, 0, "cut 1 1 100 1\npush 4 1 2 1\npush 4 1 2 1\nsub 1 4 1\nadd 1 104 3", 18),  # E of sub
    (15, 0, "cut 1 1 100 1\npush 4 1 2 1\npush 4 1 2 1\nsub 1 4 2\nadd 2 104 3", 19),  # K of add
    (15, 0, "cut 1 1 100 1\npush 4 1 2 1\npush 4 1 2 1\nsub 1 4 2\nadd 1 103 3", 19),  # H of add
    (15, 0, "cut 1 1 100 1\npush 4 1 2 1\npush 4 1 2 1\nsub 1 4 2\nadd 1 104 2", 19),  # E of add
    (15, 0, "push 4 1 2 1\npush 4 1 2 1\nsub 1 4 2\nadd 1 204 2", 18),  # K of the operands of add
    (15, 0, "cut 1 2 100 1", 15),  # K of cut
    (15, 0, "cut 1 1 99 1", 15),  # H of cut
    (15, 0, "cut 1 1 100 0", 15),  # E of cut
    (15, 0, "cut 1 1 100 1\ncut 1 2 50 2", 0),
    (15, 0, "cut 1 1 100 1\ncut 1 2 50 1", 16),  # E of cut rounds up and adds 1
    (15, 0, "cut 1 1 100 1\ncut 0 1 100 1", 0),  # cut by 0
    (15, 0, "cut 1 1 100 1\ncut 0 1 100 0", 16),  # E of cut by 0
    (4, 1, "input 0 1 10 0", 4),  # K of input
    (4, 1, "input 0 0 9 0", 4),  # H of input
    (4, 1, "input 2 0 10 0", 4),  # no such variable
    (6, 1, "get 64 1 10 0", 6),  # K of get
    (6, 1, "get 64 0 9 0", 6),  # H of get
    (6, 1, "get 65 0 10 0", 6),  # a local that isn't set
    (15, 0, "cut 1 1 100 1\nset 0\nget 0 1 100 1", 0),
    (15, 0, "cut 1 1 100 1\nset 0\nget 0 1 100 0", 17),  # E of get
    (8, 1, "mul 1 100 0", 8),  # K of mul
    (8, 1, "mul 0 99 0", 8),  # H of mul
    (15, 0, "push 1 1 0 1\nmul 1 0 200", 0),
    (15, 0, "push 1 1 0 1\nmul 1 0 199", 16),  # E of mul
    (15, 0, "cut 1 1 100 1\npush 1 1 0 1\nmul 2 0 101", 0),
    (15, 0, "cut 1 1 100 1\npush 1 1 0 1\nmul 2 0 100", 17),  # E of mul
    (15, 0, "cut 1 1 100 1\npush 1 1 0 1\nmul 1 0 101", 17),  # K of mul is a sum
    (15, 0, "push 1 255 0 1\nmul 255 0 200\npush 1 0 1 0\nmul 255 0 200", 0),
    (15, 0, "push 1 255 0 1\nmul 255 0 200\npush 1 1 0 1\nmul 255 0 200", 18),  # K past 255
    (15, 0, "cut 255 255 0 1\ncut 1 255 0 2", 16),  # K past 255
    (15, 0, "neg 0 200 0\nneg 0 200 0", 0),
    (15, 0, "neg 1 200 0\nneg 0 200 0", 15),  # K of neg
    (15, 0, "neg 0 199 0\nneg 0 200 0", 15),  # H of neg
    (15, 0, "cut 1 1 100 1\nneg 1 100 0\nneg 1 100 1", 16),  # E of neg
    (15, 0, "push 0 0 9223372036854775607 0\nadd 0 9223372036854775807 0", 0),
    (15, 0, "push 0 0 9223372036854775608 0\nadd 0 9223372036854775808 0", 16),  # H past 64 bits
    (15, 0,
     "push 85070591730234615865843651857942052864 64 4611686018427387904 1\n"
     "push 85070591730234615865843651857942052863 64 4611686018427387903 1\nsub 64 9223372036854775807 2\nset 0",
     0),
    # the running size
    (15, 0,
     "push 170141183460469231731687303715884105727 65 4611686018427387903 1\n"
     "push 170141183460469231731687303715884105727 65 4611686018427387903 1\nsub 65 9223372036854775806 2",
     17),
    (15, 0, "push 0 0 0 0", 16),  # decide over two values
    (4, 11, "", 4),  # decide over none
    (14, 1, "add 0 200 0", 15),  # decide over another polynomial
    (14, 1, "sub 0 200 9223372036854775807", 0),
    (14, 1, "sub 0 200 9223372036854775808", 15),  # E past 64 bits
    (14, 1, "neg 0 100 0\nadd 0 200 0", 0),  # another way to the polynomial
    (4, 1, "neg 0 10 0", 4),  # neg over an empty stack
    (4, 1, "cut 1 1 10 1", 4),  # cut over an empty stack
    (4, 1, "set 64", 4),  # set over an empty stack
    (25, 1, "block 2 0^1", 25),  # another number
    (25, 1, "block 0 0^1", 25),  # another number
    (25, 1, "block 1 1^1 0^1", 25),  # variables don't rise
    (25, 1, "block 1 0^1 0^1", 25),  # variables don't rise
    (25, 1, "block 1 2^1", 25),  # no such variable
    (25, 1, "block 1 1^1", 29),  # other exponents
    (25, 1, "block 1 0^3", 29),  # a derivative that is 0
    (26, 3, "", 26),  # end over nothing
    (41, 1, "order 1 0 : 0 1 2", 41),  # not the next order
    (41, 1, "order 0 : 0 1 2", 41),  # too few places
    (41, 1, "order 0 1 2 : 0 1 2", 41),  # too many places
    (41, 1, "order 0 0 : 0 1 2", 41),  # a place twice
    (41, 1, "order : 0 1 2", 41),  # no places
    (41, 1, "order 0 1 : 0 1", 41),  # a stage is missing
    (41, 1, "order 0 1 : 0 2 1", 41),  # stages in another order
    (41, 1, "order 0 1 : 0 1 2 2", 41),  # a stage twice
    (41, 1, "order 0 1 : 0 1 3", 41),  # a stage of another order
    (41, 1, "order 0 1 : 0 1 5", 41),  # no such block
    (42, 1, "order 1 0 : 0 3", 42),  # a stage is missing
    (42, 1, "order 0 1 : 0 1 2", 42),  # an order twice
    (42, 1, "", 42),  # an order is omitted
    (43, 0, "order 1 0 : 0 3 4", 43),  # one order too many
]
# Each rule of version 1.
RULES_OF_BOUNDS = [
    (26, 1, "push 2 1", 26),  # B of push
    (34, 1, "push -2 1", 34),  # B of push
    (26, 1, "push 2 170141183460469231731687303715884105728", 26),  # B past 128 bits
    (29, 0, "push 0 170141183460469231731687303715884105707\nadd128 170141183460469231731687303715884105727", 0),
    (29, 0, "push 0 170141183460469231731687303715884105708\nadd128 170141183460469231731687303715884105728", 30),  # B past 128 bits
    (29, 0, "push 0 170141183460469231731687303715884105708\nadd128 170141183460469231731687303715884105727", 30),  # B of add
    (27, 1, "input 0 9", 27),  # B of input
    (27, 1, "input 0 11", 28),  # B of mul
    (27, 1, "input 2 10", 27),  # no such variable
    (17, 1, "get 64 10", 17),  # a local of the filter
    (29, 0, "set 0\nget 0 20", 0),
    (29, 0, "set 0\nget 0 19", 30),  # B of get
    (29, 0, "set 0\nget 1 20", 30),  # a local that isn't set
    (29, 0, "neg128 20\nset 0\nget 0 20\nneg128 20", 0),
    (29, 0, "neg128 20\nset 0\nget 0 20\nneg64 20", 32),  # get is as wide as its local
    (29, 3, "set 5\nget 5 20\nend\nblock 2 0^2\nget 5 20", 33),  # a local of another block
    (28, 1, "mul64 19", 28),  # B of mul
    (28, 1, "mul128 20", 0),
    (23, 1, "sub64 199", 23),  # B of sub
    (29, 0, "push 0 0\nadd64 19", 30),  # B of add
    (29, 0, "neg64 20\nneg64 20", 0),
    (29, 0, "neg64 19\nneg64 20", 29),  # B of neg
    (29, 0, "push 0 9223372036854775787\nadd64 9223372036854775807", 0),
    (29, 0, "push 0 9223372036854775788\nadd64 9223372036854775808", 30),  # B past 64 bits
    (29, 0, "push 0 9223372036854775788\nadd128 9223372036854775808", 0),
    (29, 0, "push 0 9223372036854775808\nadd64 9223372036854775807", 30),  # a wide operand
    (29, 0, "neg128 20\nneg64 20", 30),  # a wide operand of neg
    (29, 0, "push 0 0\nneg128 0\nadd64 20", 31),  # a wide operand second
    (29, 0, "neg128 20\nneg128 20\npush 0 0\nadd64 20", 32),  # a wide operand first
    (29, 0, "push 0 0", 30),  # end over two values
    (26, 3, "push 3 3\ninput 0 10\nmul64 30", 29),  # end over another polynomial
    (29, 0, "set 0", 30),  # end over nothing
    (26, 1, "add64 20", 26),  # add over an empty stack
    (28, 1, "neg64 10\nmul64 20\nadd64 20", 30),  # add over one value
    (41, 1, "block 5 0^1\npush 2 2\ninput 0 10\nmul64 20\nend\norder 0 1 : 0 5 2", 0),  # a block twice; one that no list names
    (41, 1, "block 5 0^1 1^1\npush 0 0\nend\norder 0 1 : 0 1 2", 0),  # a block that no list names
    (41, 1, "block 5 0^1 1^1\npush 1 1\nend\norder 0 1 : 0 1 2", 43),  # a block that no list names is judged
    (29, 0,
     "push 170141183460469231731687303715884105727 170141183460469231731687303715884105727\nset 0\n"
     "get 0 170141183460469231731687303715884105727\nset 0",
     0),
    (15, 0, "push 21267647932558653966460912964485513216 124 1 1\ninput 0 0 10 0\nmul 124 10 10\nset 0", 17),  # the running size of an input
    (41, 1, "block 5 0^1\npush 2 2 \nend\norder 0 1 : 0 1 2", 42),  # form: two blanks
]
# Each rule of version 2.
RULES_OF_RANGES = [
    (15, 0, "push 21267647932558653966460912964485513216 124 1 1\ninput 0 0 10 0\nmul 124 10 10\nset 0", 0),  # the running size of an input is 1
    (26, 1, "push 2 3 3", 26),  # low of push
    (26, 1, "push 2 1 1", 26),  # high of push
    (26, 1, "push 2 -2 2", 0),  # a wider pair
    (26, 1, "push 2 2 170141183460469231731687303715884105727", 28),  # a wide operand
    (29, 0, "push 0 0 170141183460469231731687303715884105707\nadd128 -20 170141183460469231731687303715884105727", 0),
    (29, 0, "push 0 0 170141183460469231731687303715884105708\nadd128 -20 170141183460469231731687303715884105727", 30),  # high of add
    (29, 0, "push 0 -170141183460469231731687303715884105708 0\nadd128 -170141183460469231731687303715884105727 20", 30),  # low of add
    (27, 1, "input 0 -9 10", 27),  # low of input
    (27, 1, "input 0 -10 9", 27),  # high of input
    (27, 1, "input 2 -10 10", 27),  # no such variable
    (17, 1, "get 64 -10 10", 17),  # a local of the filter
    (29, 0, "set 0\nget 0 -20 20", 0),
    (29, 0, "set 0\nget 0 -19 20", 30),  # low of get
    (29, 0, "set 0\nget 0 -20 19", 30),  # high of get
    (29, 0, "set 0\nget 1 -20 20", 30),  # a local that isn't set
    (29, 0, "neg128 -20 20\nset 0\nget 0 -20 20\nneg64 -20 20", 32),  # get is as wide as its local
    (29, 3, "set 5\nget 5 -20 20\nend\nblock 2 0^2\nget 5 -20 20", 33),  # a local of another block
    (28, 1, "mul64 -19 20", 28),  # low of mul
    (28, 1, "mul64 -20 19", 28),  # high of mul
    (28, 1, "mul128 -20 20", 0),
    (23, 1, "sub64 -199 200", 23),  # low of sub
    (23, 1, "sub64 -200 199", 23),  # high of sub
    (29, 0, "push 0 -1 3\nsub64 -23 21", 0),
    (29, 0, "push 0 -1 3\nsub64 -22 21", 30),  # low of sub
    (29, 0, "push 0 -1 3\nsub64 -23 20", 30),  # high of sub
    (29, 0, "push 0 -1 3\nadd64 -21 23", 0),
    (29, 0, "push 0 -1 3\nadd64 -20 23", 30),  # low of add
    (29, 0, "push 0 -1 3\nadd64 -21 22", 30),  # high of add
    (29, 0, "push 0 -1 3\nadd64 -21 23\nneg64 -23 21\nneg64 -21 23", 0),
    (29, 0, "push 0 -1 3\nadd64 -21 23\nneg64 -22 21", 31),  # low of neg
    (29, 0, "push 0 -1 3\nadd64 -21 23\nneg64 -23 20", 31),  # high of neg
    (29, 0, "push 1 -2 3\nmul64 -60 60", 0),
    (29, 0, "push 1 -2 3\nmul64 -59 60", 30),  # low of mul
    (29, 0, "push 0 0 9223372036854775787\nadd64 -20 9223372036854775807", 0),
    (29, 0, "push 0 0 9223372036854775788\nadd64 -20 9223372036854775808", 30),  # high past 64 bits
    (29, 0, "push 0 -9223372036854775787 0\nadd64 -9223372036854775807 20", 0),
    (29, 0, "push 0 -9223372036854775788 0\nadd64 -9223372036854775808 20", 30),  # low past 64 bits
    (29, 0, "push 0 -9223372036854775788 0\nadd128 -9223372036854775808 20", 0),
    (29, 0, "neg128 -20 20\nneg64 -20 20", 30),  # a wide operand of neg
    (29, 0, "push 0 0 0\nneg128 0 0\nadd64 -20 20", 31),  # a wide operand second
    (29, 0, "neg128 -20 20\nneg128 -20 20\npush 0 0 0\nadd64 -20 20", 32),  # a wide operand first
    # the running size
    (29, 0,
     "push 85070591730234615865843651857942052864 85070591730234615865843651857942052864 85070591730234615865843651857942052864\n"
     "push 85070591730234615865843651857942052864 85070591730234615865843651857942052864 85070591730234615865843651857942052864\n"
     "sub128 0 0\nadd128 -20 20",
     31),
    # the running size
    (29, 0,
     "push 85070591730234615865843651857942052864 85070591730234615865843651857942052864 85070591730234615865843651857942052864\n"
     "push 85070591730234615865843651857942052863 85070591730234615865843651857942052863 85070591730234615865843651857942052863\n"
     "sub128 1 1\nsub128 -21 19",
     32),
    # the running size of an input is 1
    (29, 0,
     "push 21267647932558653966460912964485513216 21267647932558653966460912964485513216 21267647932558653966460912964485513216\n"
     "push 21267647932558653966460912964485513215 21267647932558653966460912964485513215 21267647932558653966460912964485513215\n"
     "sub128 1 1\nmul128 -20 20",
     0),
    (29, 0,
     "push 42535295865117307932921825928971026432 42535295865117307932921825928971026432 42535295865117307932921825928971026432\n"
     "push 42535295865117307932921825928971026431 42535295865117307932921825928971026431 42535295865117307932921825928971026431\n"
     "sub128 1 1\nmul128 -20 20",
     0),
    # the running size of a product
    (29, 0,
     "push 42535295865117307932921825928971026432 42535295865117307932921825928971026432 42535295865117307932921825928971026432\n"
     "push 42535295865117307932921825928971026432 42535295865117307932921825928971026432 42535295865117307932921825928971026432\n"
     "sub128 1 1\nmul128 -20 20",
     31),
    (29, 0, "push 0 0 0", 30),  # end over two values
    (26, 3, "push 3 3 3\ninput 0 -10 10\nmul64 -30 30", 29),  # end over another polynomial
    (29, 0, "set 0", 30),  # end over nothing
    (26, 1, "add64 -20 20", 26),  # add over an empty stack
    (41, 1, "block 5 0^1\npush 2 2 2\ninput 0 -10 10\nmul64 -20 20\nend\norder 0 1 : 0 5 2", 0),
    (41, 1, "block 5 0^1 1^1\npush 1 1 1\nend\norder 0 1 : 0 1 2", 43),  # a block that no list names is judged
    (26, 1, "push 2 2", 26),  # form: version 1's line
]
# A number of the listing of version 1 changed at random.
NUMBERS_OF_BOUNDS = [
    (4, 1, "input 0 0 5 0", 4),
    (11, 1, "get 64 -1 10 0", 11),
    (19, 1, "mul64 1000", 23),
    (39, 1, "push -1 0", 39),
    (5, 1, "set 5", 6),
    (38, 1, "block 4 0^2", 40),
    (18, 1, "input 1 10", 24),
    (34, 1, "push 2 2", 37),
    (17, 1, "input 0 20", 19),
    (19, 1, "mul64 2", 19),
    (7, 1, "get 64 0 10 -1", 7),
    (6, 1, "get 10 0 10 0", 6),
    (4, 1, "input 0 0 11 0", 6),
    (30, 1, "block 2 1^2", 32),
    (9, 1, "input 1 0 10 9", 11),
    (36, 1, "mul64 200", 0),
    (13, 1, "mul 0 101 0", 14),
    (8, 1, "mul 1 100 0", 8),
    (4, 1, "input -1 0 10 0", 4),
    (16, 1, "block 1", 16),
    (5, 1, "set 65", 6),
    (39, 1, "push 1 1", 40),
    (21, 1, "input 0 10", 24),
    (21, 1, "input 1 0", 21),
    (4, 1, "input 0 0 10 1", 6),
    (12, 1, "get 64 0 11 0", 13),
    (21, 1, "input 1 11", 22),
    (13, 1, "mul 0 100 1", 14),
    (17, 1, "input 4 10", 17),
    (7, 1, "get 63 0 10 0", 7),
    (11, 1, "get 64 0 20 0", 13),
    (42, 1, "order 1 0 : 0 3 0", 42),
    (10, 1, "set 63", 15),
    (7, 1, "get -64 0 10 0", 7),
    (31, 1, "push 7 1", 31),
    (20, 1, "input 1 20", 22),
    (11, 1, "get 63 0 10 0", 11),
    (19, 1, "mul64 -100", 19),
    (4, 1, "input 0 0 10 -3", 4),
    (17, 1, "input 0 2", 17),
    (36, 1, "mul64 -3", 36),
    (34, 1, "push -1 2", 37),
    (30, 1, "block 2 0^0", 30),
    (36, 1, "mul64 0", 36),
    (41, 1, "order 0 1 : 0 0 2", 41),
    (27, 1, "input 0 -3", 27),
    (7, 1, "get 64 1 10 0", 7),
    (8, 1, "mul 0 100 -1", 8),
    (27, 1, "input 0 11", 28),
    (9, 1, "input -1 0 10 0", 9),
    (17, 1, "input 0 -10", 17),
    (13, 1, "mul 0 100 -1", 13),
    (38, 1, "block 4 1^4", 40),
    (35, 1, "input 7 10", 35),
    (7, 1, "get 64 0 10 3", 8),
    (5, 1, "set 0", 6),
    (23, 1, "sub64 201", 0),
    (28, 1, "mul64 21", 0),
    (12, 1, "get 640 0 10 0", 12),
    (16, 1, "block -1", 16),
]
# A number of the listing of version 2 changed at random.
NUMBERS_OF_RANGES = [
    (21, 1, "input 1 -10 9", 21),
    (20, 1, "input 0 -10 10", 24),
    (21, 1, "input 11 -10 10", 21),
    (5, 1, "set 10", 6),
    (10, 1, "set -2", 10),
    (20, 1, "input 1 -9 10", 20),
    (10, 1, "set 63", 15),
    (14, 1, "sub 0 201 0", 0),
    (39, 1, "push -1 0 -1", 39),
    (10, 1, "set -64", 10),
    (36, 1, "mul64 -21 20", 0),
    (34, 1, "push -2 -3 -2", 36),
    (17, 1, "input 1 -10 10", 24),
    (39, 1, "push -1 1 -1", 39),
    (22, 1, "mul64 100 100", 22),
    (13, 1, "mul 7 100 0", 13),
    (42, 1, "order 0 0 : 0 3 4", 42),
    (41, 1, "order 0 0 : 0 1 2", 41),
    (41, 1, "order 0 1 : 0 1 -2", 41),
    (11, 1, "get 64 0 10 -1", 11),
    (16, 1, "block -1", 16),
    (9, 1, "input 1 0 0 0", 9),
    (26, 1, "push 0 2 2", 26),
    (26, 1, "push 2 3 2", 26),
    (13, 1, "mul 0 1000 0", 14),
    (33, 1, "block 3 2^1", 33),
    (34, 1, "push 6 -2 -2", 34),
    (4, 1, "input 0 1 10 0", 4),
    (8, 1, "mul 11 100 0", 8),
    (19, 1, "mul64 -100 -100", 19),
    (17, 1, "input -1 -10 10", 17),
    (8, 1, "mul 0 200 0", 14),
    (34, 1, "push 7 -2 -2", 34),
    (13, 1, "mul -1 100 0", 13),
    (7, 1, "get 64 0 10 -2", 7),
    (41, 1, "order 0 1 : 0 2 2", 41),
    (10, 1, "set 65", 15),
    (4, 1, "input 0 0 5 0", 4),
    (21, 1, "input 1 -10 11", 22),
    (39, 1, "push -1 -1 0", 0),
    (14, 1, "sub 1 200 0", 14),
    (31, 1, "push 1 1 0", 31),
    (11, 1, "get 63 0 10 0", 11),
    (17, 1, "input 0 -100 10", 19),
    (26, 1, "push 2 2 3", 28),
    (42, 1, "order 1 1 : 0 3 4", 42),
    (42, 1, "order 1 -1 : 0 3 4", 42),
    (21, 1, "input 1 -10 4", 21),
    (14, 1, "sub 0 6 0", 14),
    (18, 1, "input 0 -10 20", 19),
    (11, 1, "get 64 1 10 0", 11),
    (5, 1, "set 63", 6),
    (41, 1, "order 0 1 : -2 1 2", 41),
    (30, 1, "block 3 0^2", 30),
    (20, 1, "input 1 10 10", 20),
    (42, 1, "order 1 0 : 0 3 1", 42),
    (5, 1, "set -1", 5),
    (20, 1, "input 1 -20 10", 22),
    (38, 1, "block 40 1^2", 38),
    (27, 1, "input 0 -10 0", 27),
]
# A number of the listing of the orientation changed at random.
NUMBERS_OF_TURNS = [
    (29, 1, "input 5 -999 1000", 29),
    (66, 1, "sub64 -2000 1999", 66),
    (31, 1, "input 2 -1000 999", 31),
    (87, 1, "order 0 0 2 : 0 3 7 1 8", 87),
    (76, 1, "input 3 0 1000", 76),
    (90, 1, "order 2 1 0 : 0 5 100 3 12", 90),
    (85, 1, "order 0 1 2 : 0 1 -2 3 4", 85),
    (75, 1, "input 1 -1001 1000", 77),
    (45, 1, "sub64 -1999 2000", 45),
    (88, 1, "order 1 2 0 : -1 3 7 5 9", 88),
    (4, 1, "input 4 0 1000 0", 19),
    (44, 1, "input 5 -1000 1001", 45),
    (88, 1, "order 1 1 0 : 0 3 7 5 9", 88),
    (87, 1, "order -1 0 2 : 0 3 7 1 8", 87),
    (40, 1, "sub64 -2000 2001", 0),
    (60, 1, "block 6 7^1 5^1", 60),
    (5, 1, "input 8 0 1000 0", 5),
    (15, 1, "input 8 0 1000 0", 15),
    (77, 1, "sub64 -2000 4000", 0),
    (33, 1, "sub64 6 2000", 33),
    (7, 1, "input 3 0 2000 0", 9),
    (21, 1, "input 0 -1000 10000", 23),
    (57, 1, "input 0 11 1000", 57),
    (55, 1, "block 10 5^1", 55),
    (61, 1, "push -1 -1 -2", 61),
    (87, 1, "order 1 0 2 : 9 3 7 1 8", 87),
    (47, 1, "block 3 3^0", 47),
    (72, 1, "push 1 1 2", 0),
    (38, 1, "input 4 -10000 1000", 40),
    (32, 1, "input 4 -1000 2000", 33),
    (38, 1, "input 5 -1000 1000", 41),
    (61, 1, "push 1 -1 -1", 61),
    (89, 1, "order 2 0 1 : 8 5 10 1 11", 89),
    (35, 1, "sub64 -8000001 8000000", 0),
    (40, 1, "sub64 0 2000", 40),
    (77, 1, "sub64 0 2000", 77),
    (6, 1, "sub -1 2000 0", 6),
    (15, 1, "input 4 0 4 0", 15),
    (56, 1, "input 2 -1000 -1000", 56),
    (71, 1, "block -9 2^1 5^1", 71),
    (56, 1, "input 3 -1000 1000", 59),
    (82, 1, "block 12 2^1 4^1", 84),
    (87, 1, "order 1 0 2 : -1 3 7 1 8", 87),
    (17, 1, "mul -1 4000000 0", 17),
    (90, 1, "order 2 1 0 : -1 5 10 3 12", 90),
    (8, 1, "input 5 0 1001 0", 9),
    (32, 1, "input 4 -1000 -1000", 32),
    (80, 1, "push -1 1 1", 80),
    (69, 1, "push -1 -1 -10", 69),
    (23, 1, "sub64 -2000 2", 23),
    (30, 1, "sub64 -1999 2000", 30),
    (22, 1, "input 4 -1000 2000", 23),
    (30, 1, "sub64 -2000 -3", 30),
    (82, 1, "block 120 3^1 4^1", 82),
    (58, 1, "sub64 2000 2000", 58),
    (14, 1, "input 2 0 -1000 0", 14),
    (5, 1, "input 3 0 1000 0", 19),
    (7, 1, "input 3 -1 1000 0", 7),
    (31, 1, "input 0 -1000 1000", 36),
    (21, 1, "input 0 -1001 1000", 23),
]
# The line that fails where line 1, 2, .. of either listing of the squares is omitted.
DELETED = [
    1, 2, 3, 4, 5, 7, 7, 14, 10, 14, 12, 12, 14, 14, 15, 16, 18, 18, 23, 21, 21, 23, 23, 24, 25, 27, 27, 28, 29, 30, 31, 32, 33, 35, 35, 36, 37, 38,
    39, 40, 41, 42, 43,
]
# Where it is there twice.
DOUBLED = [
    2, 3, 4, 16, 6, 16, 16, 9, 16, 12, 16, 16, 14, 15, 16, 17, 25, 25, 20, 25, 25, 23, 24, 25, 26, 30, 29, 29, 30, 31, 33, 33, 34, 38, 37, 37, 38, 39,
    41, 41, 42, 43, 44,
]
# Where it changes places with the next one.
EXCHANGED = [
    1, 2, 3, 4, 5, 0, 7, 11, 11, 15, 0, 12, 14, 15, 15, 16, 0, 18, 22, 0, 21, 23, 24, 24, 25, 0, 27, 29, 29, 30, 32, 32, 33, 0, 35, 37, 37, 38, 40,
    40, 41, 43,
]
# A param is no coordinate of a site.
RULES_OF_PARAMS = [
    (9, 1, "block 1 1^1", 9),
    (9, 1, "block 1 0^1 1^1", 9),
    (12, 1, "order 0 : 0", 12),
    (12, 1, "order 0 : 0 1 1", 12),
    (6, 1, "input 1 4", 6),
    (2, 1, "predicate c", 2),
]


def powers(variable, local):
    """Lines of a block that store a variable's powers 1, 2, 4, 8, 16 and 32 in locals from this one on."""
    lines = [f"input {variable} 1", f"set {local}"]
    for n in range(local, local + 5):
        lines += [f"get {n} 1", f"get {n} 1", "mul64 1", f"set {n + 1}"]
    return lines


def product(count):
    """Lines of a block of version 1 that make the product of this many sums, of 1 and a power each, and store it."""
    lines = powers(0, 0) + powers(1, 10)
    for n, local in enumerate([0, 1, 2, 3, 4, 10, 11, 12, 13, 14, 15][:count], 1):
        lines += ["push 1 1", f"get {local} 1", "add64 2"] + ([f"mul64 {2 ** n}"] if n > 1 else [])
    return "\n".join(lines + ["set 20"])


def power(last):
    """Lines of a block of version 1 that make the power 127 of a variable, then these last lines, and store the result."""
    return "input 0 1\nset 0\ninput 0 1\n" + "get 0 1\nget 0 1\nmul64 1\nset 0\nget 0 1\nmul64 1\n" * 6 + last + "set 20"


# A polynomial of 1,024 terms, which is the limit.
MANY_TERMS = product(10)
# One of 2,048 terms, at line 87 of these.
MORE_TERMS = product(11)
# The power 127 of a variable.
HIGH_POWER = power("")
# The power 128, at line 41 of these.
HIGHER_POWER = power("input 0 1\nmul64 1\n")

VERIFY = ["verify", "s.ln", "listing"]
LIST = ["list", "s.ln"]


def verdict(source, listing, line):
    """The case of a listing of which this is the first line that fails, 0 where none does."""
    files = {"s.ln": source, "listing": listing}
    return (VERIFY, files, 5, f"invalid {line}\n", "") if line else (VERIFY, files, 0, "valid\n", "")


def changed(base, at, cut, new):
    """The listing with another text in the place of this many lines from one on, which is counted from 1."""
    lines = base.splitlines(True)
    return "".join(lines[:at - 1] + ([new + "\n"] if new else []) + lines[at - 1 + cut:])


def line_at(base, at):
    """A line, without its line feed."""
    return base.splitlines()[at - 1]


def doubled(base, at):
    """The listing with a line twice."""
    return changed(base, at, 0, line_at(base, at))


def exchanged(base, at):
    """The listing with a line after the next one."""
    return changed(changed(base, at, 1, line_at(base, at + 1)), at + 1, 1, line_at(base, at))


def changes(source, base, table):
    """The cases of a table of changes of a listing."""
    return [verdict(source, changed(base, at, cut, new), line) for at, cut, new, line in table]


def moved(base):
    """The cases of a listing of the squares without each of its lines, with each of them twice, and with each after the next one."""
    cases = [verdict(SQUARES, changed(base, at, 1, ""), line) for at, line in enumerate(DELETED, 1)]
    cases += [verdict(SQUARES, doubled(base, at), line) for at, line in enumerate(DOUBLED, 1)]
    return cases + [verdict(SQUARES, exchanged(base, at), line) for at, line in enumerate(EXCHANGED, 1)]


def prefixes(base):
    """The cases of each prefix of a listing of the squares. Whether it is cut short in a line or before it, this line is the first that isn't there."""
    cases = [verdict(SQUARES, base[:end], 1 + base.count("\n", 0, end)) for end in range(len(base))]
    return [*cases, verdict(SQUARES, base, 0)]


def zeros(count):
    """Lines that push this many zeros onto a stack and take them off, between lines of the listing of version 1."""
    return "push 0 0\n" * count + "set 0\n" * count + "neg64 20\nneg64 20"


def listed(run):
    """The cases of the listings that `list` writes; where it fails, the listing is empty and no listing."""
    for source in ("", SQUARES, ORIENT, NOTHING_ADDED, FAR, SCALED, BOTH, CIRCLE):
        status, listing, _ = run(LIST, {"s.ln": source})
        yield verdict(source, listing if status == 0 else "", 0)


CASES = {
    "each rule of either version fails alone": changes(SQUARES, BOUNDS, RULES) + changes(SQUARES, RANGES, RULES),
    "each rule of one version fails alone": [
        *changes(SQUARES, BOUNDS, RULES_OF_BOUNDS),
        *changes(SQUARES, RANGES, RULES_OF_RANGES),
        *changes(SCALED, SCALED_BOUNDS, RULES_OF_PARAMS),
    ],
    "numbers that are changed": [
        *changes(SQUARES, BOUNDS, NUMBERS_OF_BOUNDS),
        *changes(SQUARES, RANGES, NUMBERS_OF_RANGES),
        *changes(ORIENT, TURNS, NUMBERS_OF_TURNS),
    ],
    "lines that move": moved(BOUNDS) + moved(RANGES),
    "listings that are cut": prefixes(BOUNDS),
    "two lines that are changed": [
        # The polynomial is three times the variable, and not twice.
        verdict(SQUARES, changed(changed(BOUNDS, 26, 1, "push 3 3"), 28, 1, "mul64 30"), 29),
        # A form fault comes before any line whose rule fails.
        verdict(SQUARES, changed(changed(RANGES, 2, 1, "predicate t"), 42, 1, "order 1 0 :"), 42),
    ],
    "what is listed is valid": listed,
    "listings are of their sources": [
        verdict(SQUARES, BOUNDS, 0),
        verdict(SQUARES, RANGES, 0),
        verdict(UNITS, BOUNDS, 0),
        verdict(ORIENT, TURNS, 0),
        verdict(OPPOSITE, BOUNDS, 15),  # another polynomial
        verdict(ORIENT, RANGES, 2),  # another name
        verdict(CIRCLE, BOUNDS, 2),  # another name
        verdict(BOTH, RANGES, 44),  # a predicate that is missing
        verdict("", BOUNDS, 2),  # a predicate that the source hasn't
        verdict("", "listing 1\n", 0),
        verdict("", "listing 2\n", 0),
        verdict(SQUARES, "listing 2\n", 2),
        verdict(SQUARES, "listing 3\n", 1),
        verdict(NOUGHT, NOUGHT_RANGES, 0),
        verdict(NOUGHT, NOUGHT_BOUNDS, 5),
    ],
    "polynomials have their limits": changes(
        UNITS, BOUNDS, [(29, 0, MANY_TERMS, 0), (29, 0, MORE_TERMS, 115), (29, 0, HIGH_POWER, 0), (29, 0, HIGHER_POWER, 69)]
    ),
    "stacks have their limit": changes(SQUARES, BOUNDS, [(29, 0, zeros(2047), 0), (29, 0, zeros(2048), 2076)]),
    "words and files of verify": [
        (["verify", "s.ln"], {"s.ln": SQUARES, "r.csv": RANGES}, 2, "", "error usage\n"),
        (["verify", "s.ln", "none"], {"s.ln": SQUARES, "r.csv": RANGES}, 6, "", "error read\n"),
        (["verify", "s.ln", "r.csv"], {"s.ln": "#", "r.csv": RANGES}, 1, "", "error lexical 1:1\n"),
    ],
}
