#!/usr/bin/env python3
"""Prints a text to be timed, by its name. With the word `prolog` behind it, the clauses for a Prolog system and the
goal, in a last line."""
import itertools
import random
import sys


def chain(items, end="nil"):
    return "".join(f"c({item}," for item in items) + end + ")" * len(items)


def numbers(count):
    return "".join(f"m({i}).\n" for i in range(count))


APPEND = "app(nil,L,L).\napp(c(H,T),L,c(H,R)) :- app(T,L,R).\n"
REVERSE = APPEND + "nrev(nil,nil).\nnrev(c(H,T),R) :- nrev(T,S), app(S,c(H,nil),R).\n"
PICK = "sel(X,c(X,T),T).\nsel(X,c(H,T),c(H,R)) :- sel(X,T,R).\n"
PERMUTE = PICK + "perm(nil,nil).\nperm(c(A,L),c(H,T)) :- sel(H,c(A,L),R), perm(R,T).\n"
QUEENS = [f"Q{i}" for i in range(8)]
ATTACK = "plus(Q,D,X), P #\\= X, plus(P,D,Y), Q #\\= Y, Q #\\= P, plus(D,1,E)"
ATTACK_PROLOG = "when(ground(Q),X is Q+D), when(ground(P-X),P=\\=X), when(ground(P),Y is P+D), when(ground(Q-Y),Q=\\=Y), when(ground(Q-P),Q=\\=P), E is D+1"


def reverse():
    """100 times the naive reverse of 130 elements: 864,600 calls."""
    return REVERSE + numbers(100) + f"t(R) :- m(X), nrev({chain(range(130))},R).\n", "t(R)"


def peano():
    """100 times 5,000 and nothing: 500,100 calls."""
    five = "s(" * 5000 + "z" + ")" * 5000
    return "add(z,X,X).\nadd(s(X),Y,s(Z)) :- add(X,Y,Z).\n" + numbers(100) + f"t(Z) :- m(X), add({five},z,Z).\n", "t(Z)"


def length():
    """50 times the length of a list of 3,000 elements, by a head with `_` before its other variables: 150,050 calls."""
    return "len(nil,z).\nlen(c(_,T),s(N)) :- len(T,N).\n" + numbers(50) + f"t(N) :- m(X), len({chain(range(3000))},N).\n", "t(N)"


def scan():
    """50 times 10,000 facts of three columns."""
    rows = "".join(f"row({i % 100},a{i % 7},b{i % 13}).\n" for i in range(10000))
    return numbers(50) + rows + "t(X,Y,Z) :- m(K), row(X,Y,Z).\n", "t(X,Y,Z)"


def queens(prolog=False):
    """Eight queens by comparisons that wait for their values."""
    attack = ATTACK_PROLOG if prolog else ATTACK
    rules = f"no(Q,nil,D).\nno(Q,c(P,Ps),D) :- {attack}, no(Q,Ps,E).\nsafe(nil).\nsafe(c(Q,Qs)) :- no(Q,Qs,1), safe(Qs).\n"
    ranges = "" if prolog else ", ".join(f"{q} :: 1..8" for q in QUEENS) + ", "
    values = ", ".join(f"between(1,8,{q})" if prolog else f"indomain({q})" for q in QUEENS)
    goal = f"t({','.join(QUEENS)})"
    return rules + f"{goal} :- {ranges}safe({chain(QUEENS)}), {values}.\n", goal


def waiting(count):
    """100 times a recursion of 5,000 steps and a failure, beside so many comparisons that wait."""
    rules = "low(0).\nlow(N) :- 0 #< N, X #< 1000000, plus(M,1,N), low(M).\n"
    rules += "loop(0).\nloop(N) :- 0 #< N, plus(M,1,N), loop(M).\n" + numbers(100)
    return rules + f"t(R) :- low({count}), m(R), loop(5000), R #< 0.\n", "t(R)"


def woken(count):
    """So many comparisons that wait, and then the values of their variables, one after another."""
    rules = "make(0,nil).\nmake(N,c(X,Xs)) :- 0 #< N, plus(M,1,N), make(M,Xs).\n"
    rules += "low(nil).\nlow(c(X,Xs)) :- X #< 1000000, low(Xs).\nset(nil).\nset(c(1,Xs)) :- set(Xs).\n"
    return rules + f"t(Xs) :- make({count},Xs), low(Xs), set(Xs).\n", "t(Xs)"


def permutations():
    """The permutations of 16 atoms by insertion: each place may be anything after a few of them."""
    places = [f"X{i}" for i in range(16)]
    rules = "ins(X,L,c(X,L)).\nins(X,c(H,T),c(H,R)) :- ins(X,T,R).\nperm(nil,nil).\nperm(c(H,T),R) :- perm(T,S), ins(H,S,R).\n"
    goal = f"t({','.join(places)})"
    return rules + f"{goal} :- perm({chain([f'a{i}' for i in range(16)])},{chain(places)}).\n", goal


def early():
    """A goal that is settled at its second answer, among two to the power of 900."""
    return "bit(a).\nbit(f(b)).\nbits(z).\nbits(s(N)) :- bits(N), bit(X).\nt(a) :- n(N), bits(N).\nt(f(b)) :- n(N), bits(N).\nn(" + "s(" * 900 + "z" + ")" * 900 + ").\nu(X) :- bit(X).\nu(X) :- t(X).\n", "u(X)"


def table():
    """4,000 facts of four columns."""
    return "".join(f"t(a{i % 3},{i % 50},f({i % 7}),b).\n" for i in range(4000)), "t(X,Y,Z,W)"


def gaps(count=10000):
    """Facts of one integer each, with gaps between them."""
    return "".join(f"t({3 * i}).\n" for i in range(count)), "t(X)"


def shuffled(count=60000):
    """The same, in an order without a pattern."""
    values = [3 * i for i in range(count)]
    random.Random(1).shuffle(values)
    return "".join(f"t({value}).\n" for value in values), "t(X)"


def deep(count=60000):
    """The same, with each integer inside a term."""
    return "".join(f"t(f(b,g({3 * i}))).\n" for i in range(count)), "t(X)"


def pairs(count=60000):
    """Facts of two such integers, in orders that differ."""
    return "".join(f"t({3 * i},{3 * (i * 7919 % count)}).\n" for i in range(count)), "t(X,Y)"


def bounded(count=60000):
    """Integers of a finite domain in an order without a pattern: all of them but one."""
    values = list(range(1, count))
    random.Random(1).shuffle(values)
    return "".join(f"t({value}).\n" for value in values) + f"?- X :: 0..{count - 1}, t(X) infers most.\n"


def wide():
    """4,000 facts of 255 columns."""
    rows = "".join("t(" + ",".join(str((i + k) % 5) for k in range(255)) + ").\n" for i in range(4000))
    return rows, "t(" + ",".join(f"X{k}" for k in range(255)) + ")"


def adder(bits):
    """A chain of full adders, a goal for each bit."""
    table = "".join(f"add({a},{b},{c},{(a + b + c) % 2},{(a + b + c) // 2}).\n" for a in (0, 1) for b in (0, 1) for c in (0, 1))
    goals = ", ".join(f"add({i % 2},1,C{i},S{i},C{i + 1}) infers most" for i in range(bits))
    return table + f"?- C0 = 1, {goals}.\n"


def ring():
    """100 negations in a ring, the first of a known value."""
    goals = ", ".join(f"neg(X{i},X{(i + 1) % 100}) infers most" for i in range(100))
    return f"neg(0,1).\nneg(1,0).\n?- X0 = 1, {goals}.\n"


def sudoku():
    """A sudoku of 6 by 6: rows, columns and blocks are permutations of 1 to 6."""
    given = {(0, 0): 1, (0, 3): 4, (1, 1): 5, (2, 2): 3, (3, 4): 6, (4, 5): 2, (5, 0): 6}
    cell = lambda r, c: str(given.get((r, c), f"X{r}{c}"))
    groups = [[(r, c) for c in range(6)] for r in range(6)] + [[(r, c) for r in range(6)] for c in range(6)]
    groups += [[(r + i, c + j) for i in range(2) for j in range(3)] for r in (0, 2, 4) for c in (0, 3)]
    names = [f"X{i}" for i in range(6)]
    goals = ", ".join("g(" + ",".join(cell(*p) for p in g) + ") infers most" for g in groups)
    return PERMUTE + f"g({','.join(names)}) :- perm(c(1,c(2,c(3,c(4,c(5,c(6,nil)))))),{chain(names)}).\n?- {goals}.\n"


def zebra():
    """The zebra puzzle: who lives in which of five houses. Each sort of thing has them in some order, by a table."""
    facts = "".join(f"all({','.join(map(str, order))}).\n" for order in itertools.permutations(range(1, 6)))
    facts += "".join(f"right({i + 1},{i}).\n" for i in range(1, 5))
    facts += "".join(f"next({i + 1},{i}).\nnext({i},{i + 1}).\n" for i in range(1, 5))
    given = "English = Red, Spanish = Dog, Coffee = Green, Ukrainian = Tea, Gold = Snails, Kools = Yellow, Milk = 3, Norwegian = 1, Lucky = Juice, Japanese = Parlia"
    beside = ["right(Green,Ivory)", "next(Chester,Fox)", "next(Kools,Horse)", "next(Norwegian,Blue)"]
    sorts = ["Red,Green,Ivory,Yellow,Blue", "English,Spanish,Ukrainian,Norwegian,Japanese", "Dog,Snails,Fox,Horse,Zebra", "Coffee,Tea,Milk,Juice,Water", "Gold,Kools,Chester,Lucky,Parlia"]
    goals = ", ".join(f"{goal} infers most" for goal in [*beside, *(f"all({sort})" for sort in sorts)])
    return f"{facts}?- {given}, {goals}.\n"


GOALS = {"reverse": reverse, "peano": peano, "length": length, "scan": scan, "queens": queens, "counting": lambda: waiting(0), "waiting": lambda: waiting(1000), "woken": lambda: woken(1000), "permutations": permutations, "early": early, "table": table, "gaps": gaps, "gaps60000": lambda: gaps(60000), "shuffled": shuffled, "deep": deep, "pairs": pairs, "wide": wide}
QUERIES = {"adder100": lambda: adder(100), "adder999": lambda: adder(999), "ring": ring, "sudoku": sudoku, "zebra": zebra, "bounded": bounded}


def main():
    name = sys.argv[1]
    if name in QUERIES:
        print(QUERIES[name](), end="")
    elif sys.argv[2:] == ["prolog"]:
        clauses, goal = queens(True) if name == "queens" else GOALS[name]()
        print(clauses + goal)
    else:
        clauses, goal = GOALS[name]()
        print(f"{clauses}?- {goal} infers most.")


main()
