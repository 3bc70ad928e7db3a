"""The texts that are timed, each by a size, in the language and as clauses for a Prolog system."""
import itertools
import math
import random
import re


def chain(items, end="nil"):
    items = list(items)
    return "".join(f"c({item}," for item in items) + end + ")" * len(items)


def names(letter, count):
    return [f"{letter}{i}" for i in range(count)]


def most(*goals):
    return [("most", goal) for goal in goals]


APPEND = "app(nil,L,L).\napp(c(H,T),L,c(H,R)) :- app(T,L,R).\n"
REVERSE = APPEND + "nrev(nil,nil).\nnrev(c(H,T),R) :- nrev(T,S), app(S,c(H,nil),R).\n"
PICK = "sel(X,c(X,T),T).\nsel(X,c(H,T),c(H,R)) :- sel(X,T,R).\n"
PERMUTE = PICK + "perm(nil,nil).\nperm(c(A,L),c(H,T)) :- sel(H,c(A,L),R), perm(R,T).\n"
INSERT = "ins(X,L,c(X,L)).\nins(X,c(H,T),c(H,R)) :- ins(X,T,R).\nput(nil,nil).\nput(c(H,T),R) :- put(T,S), ins(H,S,R).\n"


def hundred():
    return "".join(f"m({i}).\n" for i in range(100))


def permutations(n):
    places = names("X", n)
    return f"{INSERT}t({','.join(places)}) :- put({chain(names('a', n))},{chain(places)}).\n", [], most(f"t({','.join(places)})")


def selections(n):
    """The first column stays what it is, so all of them are looked at."""
    places = names("X", n)
    return f"{PERMUTE}t(k,{','.join(places)}) :- perm({chain(names('a', n))},{chain(places)}).\n", [], most(f"t(K,{','.join(places)})")


def reverse(n):
    return f"{REVERSE}{hundred()}t(R) :- m(X), nrev({chain(range(n))},R).\n", [], most("t(R)")


def peano(n):
    number = "s(" * n + "z" + ")" * n
    return f"add(z,X,X).\nadd(s(X),Y,s(Z)) :- add(X,Y,Z).\n{hundred()}t(Z) :- m(X), add({number},z,Z).\n", [], most("t(Z)")


def splits(n):
    return f"{APPEND}t(k,X,Y) :- app(X,Y,{chain(names('a', n))}).\n", [], most("t(K,X,Y)")


def adder(n):
    bits = itertools.product((0, 1), repeat=3)
    facts = "".join(f"add({a},{b},{c},{(a + b + c) % 2},{(a + b + c) // 2}).\n" for a, b, c in bits)
    return facts, ["C0 = 1"], most(*(f"add({i % 2},1,C{i},S{i},C{i + 1})" for i in range(n)))


def ring(n):
    return "neg(0,1).\nneg(1,0).\n", ["X0 = 1"], most(*(f"neg(X{i},X{(i + 1) % n})" for i in range(n)))


def table(n):
    facts = "".join(f"t(a{i % 3},{i % 50},f({i % 7}),b).\n" for i in range(n))
    return facts, [], most(*(f"t(X{k},{k % 50},Y{k},Z{k})" for k in range(58)))


def join(n):
    """Each key stands once in each table."""
    facts = "".join(f"r(k{i},a{i % 5}).\n" for i in range(n)) + "".join(f"s(k{n - 1 - i},b{i % 3}).\n" for i in range(n))
    return f"{facts}j(k,A,B) :- r(K,A), s(K,B).\n", [], most("j(K,A,B)")


def path(n):
    facts = "".join(f"e(n{i},n{i + 1}).\n" for i in range(n))
    return f"{facts}end(n{n}).\npath(X,X).\npath(X,Z) :- e(X,Y), path(Y,Z).\nt(Z) :- path(n0,Z), end(Z).\n", [], most("t(Z)")


def pigeons(n):
    holes = "".join(f"hole({i}).\n" for i in range(1, n))
    birds = names("P", n)
    body = ", ".join(", ".join([f"hole({p})", *(f"{q} #\\= {p}" for q in birds[:i])]) for i, p in enumerate(birds))
    return f"{holes}t({','.join(birds)}) :- {body}.\n", [], most(f"t({','.join(birds)})")


def zebra(n):
    """Five houses, and for larger n houses of which no clue tells; all different by a table of permutations."""
    facts = "".join(f"all({','.join(map(str, p))}).\n" for p in itertools.permutations(range(1, n + 1)))
    facts += "".join(f"right({i + 1},{i}).\n" for i in range(1, n))
    facts += "".join(f"next({i + 1},{i}).\nnext({i},{i + 1}).\n" for i in range(1, n))
    sorts = ["Red Green Ivory Yellow Blue", "English Spanish Ukrainian Norwegian Japanese", "Dog Snails Fox Horse Zebra", "Coffee Tea Milk Juice Water", "Gold Kools Chester Lucky Parlia"]
    given = ["English = Red", "Spanish = Dog", "Coffee = Green", "Ukrainian = Tea", "Gold = Snails", "Kools = Yellow", "Milk = 3", "Norwegian = 1", "Lucky = Juice", "Japanese = Parlia"]
    goals = [f"all({','.join(s.split() + [f'E{k}x{i}' for i in range(n - 5)])})" for k, s in enumerate(sorts)]
    return facts, given, most("right(Green,Ivory)", "next(Chester,Fox)", "next(Kools,Horse)", "next(Norwegian,Blue)", *goals)


def sudoku(n):
    """n by n, with its blocks; all different by permutations. About two of five cells are given."""
    high = {4: 2, 6: 2, 8: 2}[n]
    wide = n // high
    value = lambda r, c: (r % high * wide + r // high + c) % n + 1
    draw = random.Random(n)
    given = {(r, c) for r in range(n) for c in range(n) if draw.random() < {4: 0.4, 6: 0.4, 8: 0.5}[n]}
    cell = lambda r, c: str(value(r, c)) if (r, c) in given else f"X{r}{c}"
    groups = [[(r, c) for c in range(n)] for r in range(n)] + [[(r, c) for r in range(n)] for c in range(n)]
    groups += [[(r + i, c + j) for i in range(high) for j in range(wide)] for r in range(0, n, high) for c in range(0, n, wide)]
    places = names("X", n)
    return f"{PERMUTE}g({','.join(places)}) :- perm({chain(range(1, n + 1))},{chain(places)}).\n", [], most(*("g(" + ",".join(cell(*p) for p in g) + ")" for g in groups))


def magic(n):
    """Magic squares of 3 by 3, with n cells of a row given. Sums are made as soon as their summands are known."""
    cells = "ABCDEFGHI"
    picks = [f"sel({c},R{i},R{i + 1})" for i, c in enumerate(cells)]
    sums = {2: "ABC", 5: "DEF", 6: "ADG", 7: "BEH", 8: "CFI"}
    body = []
    for i, pick in enumerate(picks):
        body.append(pick)
        if i in sums:
            a, b, c = sums[i]
            body.append(f"plus({a},{b},S{i}), plus(S{i},{c},15)")
    body.append("plus(A,E,U), plus(U,I,15), plus(C,E,V), plus(V,G,15), plus(G,H,W), plus(W,I,15)")
    rule = f"t({','.join(cells)}) :- R0 = {chain(range(1, 10))}, {', '.join(body)}.\n"
    return PICK + rule, ["A = 2", "B = 7", "C = 6"][:n], most(f"t({','.join(cells)})")


def integers(values):
    return "".join(f"t({i}).\n" for i in values), [], most("t(X)")


def ascending(n):
    return integers(range(0, 3 * n, 3))


def shuffled(n):
    values = list(range(0, 3 * n, 3))
    random.Random(n).shuffle(values)
    return integers(values)


def early(n):
    number = "s(" * n + "z" + ")" * n
    rules = "bit(a).\nbit(f(b)).\nbits(z).\nbits(s(N)) :- bits(N), bit(X).\nt(a) :- n(N), bits(N).\nt(f(b)) :- n(N), bits(N).\n"
    return f"{rules}n({number}).\nu(X) :- bit(X).\nu(X) :- t(X).\n", [], most("u(X)")


# What is timed: the text, its three sizes, and the bar to SWI-Prolog's better way.
TEXTS = {
    "permutations": (permutations, (6, 7, 8), 0.3),
    "selections": (selections, (6, 7, 8), 0.3),
    "reverse": (reverse, (30, 60, 120), 1.2),
    "peano": (peano, (750, 1500, 3000), 1.2),
    "splits": (splits, (125, 250, 500), 1.2),
    "adder": (adder, (100, 300, 900), 1),
    "ring": (ring, (100, 300, 900), 1),
    "table": (table, (1000, 4000, 16000), 0.3),
    "join": (join, (500, 1000, 2000), 0.3),
    "path": (path, (500, 1000, 2000), 1),
    "pigeons": (pigeons, (6, 7, 8), 1),
    "zebra": (zebra, (5, 6, 7), 1),
    "sudoku": (sudoku, (4, 6, 8), 1),
    "magic": (magic, (2, 1, 0), 1),
    "ascending": (ascending, (6000, 20000, 60000), 0.5),
    "shuffled": (shuffled, (6000, 20000, 60000), 0.5),
    "early": (early, (300, 600, 900), 0.2),
}


def text(name, size):
    clauses, given, goals = TEXTS[name][0](size)
    return f"{clauses}?- {', '.join(given + [f'{goal} infers {mode}' for mode, goal in goals])}.\n"


def variables(item):
    return list(dict.fromkeys(re.findall(r"\b[A-Z]\w*", item)))


def prolog(name, size):
    """The same clauses, with the built-ins by their names there and in propagate.pl."""
    return TEXTS[name][0](size)[0].replace("#\\=", "=\\=").replace("plus(", "sum(")


def query(name, size):
    """The query as the term that propagate.pl reads."""
    _, given, goals = TEXTS[name][0](size)
    store = list(dict.fromkeys(name for item in [*given, *(goal for _, goal in goals)] for name in variables(item)))
    place = {name: i + 1 for i, name in enumerate(store)}
    places = [[place[name] for name in variables(goal)] for _, goal in goals]
    watchers = [[] for _ in store]
    for number, those in enumerate(places, 1):
        for i in those:
            watchers[i - 1].append(number)
    term = lambda name, parts: f"{name}({','.join(map(str, parts))})"
    blocks = lambda parts: term("blocks", (term("block", parts[i : i + 200]) for i in range(0, len(parts), 200)))
    shown = "[" + ",".join(f"'{name}'={name}" for name in store) + "]"
    body = "(" + (", ".join(given) or "true") + ")"
    return term("query", [shown, blocks(store), body, blocks([f"{mode}-{goal}" for mode, goal in goals]), blocks(places), blocks(watchers)]) + ".\n"


def goals(name, size):
    return len(TEXTS[name][0](size)[2])


# The ways of propagate.pl that are tried where not all of them make sense: the others never end, or join each integer
# to a domain of thousands of intervals.
WAYS = {"early": ["step"], "ascending": ["plain"], "shuffled": ["plain"]}


def ways(name, size):
    return WAYS.get(name) or (["plain", "list", "step"] if goals(name, size) == 1 else ["list", "step"])


def tries(n):
    """How often a pigeon is put into a hole."""
    return sum((n - 1) * math.perm(n - 1, i) for i in range(n))


# What a text's time grows with: a word for it, and how many there are at a size.
UNITS = {
    "selections": ("answer that is covered", math.factorial),
    "reverse": ("call", lambda n: 50 * (n + 1) * (n + 2)),
    "peano": ("call", lambda n: 100 * (n + 1)),
    "splits": ("element of an answer that is joined", lambda n: n * (n + 1)),
    "adder": ("turn", lambda n: 2 * n),
    "ring": ("turn", lambda n: 2 * n),
    "table": ("fact that a goal looks at", lambda n: 116 * n),
    "join": ("key that is looked up", lambda n: n),
    "path": ("key that is looked up", lambda n: n),
    "pigeons": ("pigeon put into a hole", tries),
    "zebra": ("fact", math.factorial),
    "ascending": ("interval", lambda n: n),
    "shuffled": ("interval", lambda n: n),
}
