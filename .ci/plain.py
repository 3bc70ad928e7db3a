"""A second, plain answer to texts, written from the definitions: no trail, no early stop, all answers kept.

Terms are ('int', n), ('var', name) and ('node', name, arguments). A goal is ('user', name, arguments), ('=', a, b),
('in', term, set) or ('test', name, arguments). What is known of variables is a dictionary of what they are bound to
and one of their finite domains, which are copied at each step. `answer` gives the exit status and the answer.
"""
import itertools

GREATEST = 10 ** 12


class TooLong(Exception):
    """The search of a text is longer than is worth waiting for."""


def variables(terms):
    """The variables in the order of first occurrence."""
    found = {}
    for term in terms:
        if term[0] == 'var':
            found[term[1]] = None
        elif term[0] == 'node':
            found.update(dict.fromkeys(variables(term[2])))
    return list(found)


def substituted(term, value_of):
    """The term with `value_of` of each variable in its place."""
    if term[0] == 'var':
        return value_of(term[1])
    if term[0] == 'node':
        return ('node', term[1], tuple(substituted(t, value_of) for t in term[2]))
    return term


class Known:
    """What is known of variables: what they are bound to, and the finite domains of those that are free."""

    def __init__(self, bound=None, domains=None):
        self.bound, self.domains = bound or {}, domains or {}

    def copy(self):
        return Known(dict(self.bound), dict(self.domains))

    def top(self, term):
        while term[0] == 'var' and term[1] in self.bound:
            term = self.bound[term[1]]
        return term

    def whole(self, term):
        top = self.top(term)
        return ('node', top[1], tuple(self.whole(t) for t in top[2])) if top[0] == 'node' else top

    def occurs(self, name, term):
        term = self.top(term)
        if term[0] == 'var':
            return term[1] == name
        return term[0] == 'node' and any(self.occurs(name, t) for t in term[2])

    def unify(self, left, right):
        """Whether both can be made equal; they are so then."""
        left, right = self.top(left), self.top(right)
        if left == right:
            return True
        if left[0] == 'var' and right[0] == 'var':
            return self.join(left[1], right[1])
        if right[0] == 'var':
            left, right = right, left
        if left[0] == 'var':
            return self.bind(left[1], right)
        if left[0] == 'int' or right[0] == 'int' or left[1] != right[1] or len(left[2]) != len(right[2]):
            return False
        return all(self.unify(a, b) for a, b in zip(left[2], right[2]))

    def bind(self, name, term):
        domain = self.domains.pop(name, None)
        if domain is not None and not (term[0] == 'int' and term[1] in domain):
            return False
        if self.occurs(name, term):
            return False
        self.bound[name] = term
        return True

    def join(self, one, other):
        domains = [d for d in (self.domains.pop(one, None), self.domains.pop(other, None)) if d is not None]
        self.bound[other] = ('var', one)
        return not domains or self.narrow(('var', one), frozenset.intersection(*domains))

    def narrow(self, term, members):
        """Whether the term can be a member of the set; it is so then."""
        term = self.top(term)
        if term[0] == 'int':
            return term[1] in members
        if term[0] == 'node':
            return False
        members &= self.domains.get(term[1], members)
        if len(members) < 2:
            self.domains.pop(term[1], None)
            self.bound.update((term[1], ('int', n)) for n in members)
            return bool(members)
        self.domains[term[1]] = members
        return True

    def row(self, terms):
        """The row of the terms: its columns, with variables numbered by first occurrence, and their domains."""
        return numbered([self.whole(t) for t in terms], self.domains)


def numbered(terms, domains):
    names = variables(terms)
    place = {name: ('var', k) for k, name in enumerate(names)}
    return (tuple(substituted(t, place.get) for t in terms), tuple(domains.get(name) for name in names))


# ===== the built-ins

def test_of(name, given):
    """What a test decides; `given` are integers, 'ranged', 'free' or 'other'."""
    if 'other' in given:
        return 'fail'
    known = [type(g) is int for g in given]
    if name in ('#<', '#=<', '#=', '#\\='):
        if not all(known):
            return 'wait'
        left, right = given
        return {'#<': left < right, '#=<': left <= right, '#=': left == right, '#\\=': left != right}[name] or 'fail'
    if name == 'indomain':
        return True if known[0] else {'ranged': 'split', 'free': 'wait'}[given[0]]
    x, y, z = given
    if name == 'times':
        if not (known[0] and known[1]):
            return 'wait'
        if abs(x * y) > GREATEST:
            return 'fail'
        return (x * y == z or 'fail') if known[2] else (2, x * y)
    if all(known):
        return x + y == z or 'fail'
    if known.count(True) < 2:
        return 'wait'
    place = known.index(False)
    value = x + y if place == 2 else z - (y if place == 0 else x)
    return (place, value) if abs(value) <= GREATEST else 'fail'


def given_of(known, term):
    term = known.top(term)
    if term[0] == 'int':
        return term[1]
    if term[0] == 'node':
        return 'other'
    return 'ranged' if term[1] in known.domains else 'free'


# ===== the search

def goal_with(goal, value_of):
    if goal[0] in ('user', 'test'):
        return (goal[0], goal[1], tuple(substituted(t, value_of) for t in goal[2]))
    if goal[0] == '=':
        return ('=', substituted(goal[1], value_of), substituted(goal[2], value_of))
    return ('in', substituted(goal[1], value_of), goal[2])


class Search:
    def __init__(self, clauses, patience=20000):
        self.clauses, self.fresh, self.left = clauses, itertools.count(), patience

    def leaves(self, goals, known, depth):
        """The leaves from left to right: whether it is an answer, and what is known there."""
        if not goals:
            yield True, known
            return
        for at, goal in enumerate(goals):
            decision = self.decision(goal, known)
            if decision != 'wait':
                yield from self.below(goals[:at], goal, goals[at + 1:], known, depth, decision)
                return
        yield False, known

    def decision(self, goal, known):
        return test_of(goal[1], [given_of(known, t) for t in goal[2]]) if goal[0] == 'test' else goal[0]

    def below(self, before, goal, after, known, depth, decision):
        if decision == 'user':
            yield from self.called(before, goal, after, known, depth)
        elif decision == 'split':
            for value in sorted(known.domains[known.top(goal[2][0])[1]]):
                yield from self.solved(before + after, known, depth, lambda k: k.unify(goal[2][0], ('int', value)))
        elif decision == '=':
            yield from self.solved(before + after, known, depth, lambda k: k.unify(goal[1], goal[2]))
        elif decision == 'in':
            yield from self.solved(before + after, known, depth, lambda k: k.narrow(goal[1], goal[2]))
        elif decision is True:
            yield from self.leaves(before + after, known, depth)
        elif decision != 'fail':
            yield from self.solved(before + after, known, depth, lambda k: k.unify(goal[2][decision[0]], ('int', decision[1])))

    def solved(self, goals, known, depth, solve):
        self.left -= 1
        if self.left < 0:
            raise TooLong
        known = known.copy()
        if solve(known):
            yield from self.leaves(goals, known, depth)

    def called(self, before, goal, after, known, depth):
        if depth == 0:
            yield False, known
            return
        for name, head, body in self.clauses:
            if name == goal[1] and len(head) == len(goal[2]):
                number = next(self.fresh)
                new = lambda v, number=number: ('var', (number, v))
                arguments = [substituted(t, new) for t in head]
                goals = before + [goal_with(g, new) for g in body] + after
                yield from self.solved(goals, known, depth - 1,
                                       lambda k: all(k.unify(a, b) for a, b in zip(arguments, goal[2])))

    def rows(self, goal, face, depth):
        """The rows of the answers and of the loose ends of a goal under its face."""
        columns, domains = face
        known = Known({}, {k: d for k, d in enumerate(domains) if d is not None})
        arguments = goal_with(goal[:2] + (columns,), lambda v: ('var', v))
        call = [('var', k) for k in range(len(domains))]
        found = [(is_answer, end.row(call)) for is_answer, end in self.leaves([arguments], known, depth)]
        return [row for is_answer, row in found if is_answer], [row for is_answer, row in found if not is_answer]


# ===== what rows have in common

def least(rows):
    """The least generalisation of rows of one width, or None of none."""
    if not rows:
        return None
    names, domains = {}, {}
    columns = []
    for subterms in zip(*(row[0] for row in rows)):
        columns.append(common(list(subterms), rows, names, domains))
    return numbered(columns, domains)


def common(subterms, rows, names, domains):
    first = subterms[0]
    kinds = {(t[0], t[1], len(t[2])) if t[0] == 'node' else t for t in subterms}
    if len(kinds) == 1 and first[0] == 'node':
        return ('node', first[1], tuple(common(list(ts), rows, names, domains) for ts in zip(*(t[2] for t in subterms))))
    if len(kinds) == 1 and first[0] == 'int':
        return first
    key = tuple(subterms)
    if key not in names:
        names[key] = len(names)
        sets = [frozenset([t[1]]) if t[0] == 'int' else row[1][t[1]] if t[0] == 'var' else None
                for t, row in zip(subterms, rows)]
        if None not in sets:
            domains[names[key]] = frozenset().union(*sets)
    return ('var', names[key])


def verdict(mode, call, answers, loose):
    """'fail', 'same', 'nothing', 'unfinished', or the row to which the goal is narrowed."""
    if not answers and not loose:
        return 'fail'
    if mode == 'consistent':
        return 'nothing' if answers else 'unfinished'
    if mode == 'unique':
        rows = set(answers)
        if len(rows) > 1:
            return 'nothing'
        if loose or not rows:
            return 'unfinished'
        return 'same' if answers[0] == call else answers[0]
    general = least(answers)
    if general == call:
        return 'same'
    return general if answers and general == least(answers + loose) else 'unfinished'


# ===== the run

def call_of(face):
    return (tuple(('var', k) for k in range(len(face[1]))), face[1])


class Run:
    def __init__(self, clauses, named, blanks, items, depth=1000, turns=10000):
        self.search, self.depth, self.turns = Search(clauses), depth, turns
        self.names = named + blanks
        self.goals = [item[1:] for item in items if item[0] == 'infers']
        known = Known()
        solved = all(known.unify(i[1], i[2]) if i[0] == '=' else known.narrow(i[1], i[2])
                     for i in items if i[0] != 'infers')
        self.store = known.row([('var', name) for name in self.names]) if solved else None

    def arguments(self, goal):
        place = {name: column for name, column in zip(self.names, self.store[0])}
        return [substituted(t, place.get) for t in goal[0][2]]

    def face(self, goal):
        return numbered(self.arguments(goal), dict(enumerate(self.store[1])))

    def apply(self, goal, given):
        places = {v: k for k, v in enumerate(variables(self.arguments(goal)))}
        value_of = lambda v: substituted(given[0][places[v]], lambda w: ('var', ('new', w))) if v in places else ('var', v)
        domains = dict(enumerate(self.store[1]))
        domains.update((('new', w), d) for w, d in enumerate(given[1]))
        self.store = numbered([substituted(t, value_of) for t in self.store[0]],
                              {v: d for v, d in domains.items() if d is not None})

    def turn(self, number):
        """The verdict of the goal's turn, which is committed."""
        goal = self.goals[number]
        faces = [self.face(g) for g in self.goals]
        found = verdict(goal[1], call_of(faces[number]), *self.search.rows(goal[0], faces[number], self.depth))
        if type(found) is tuple:
            self.apply(goal, found)
            self.waiting += [k for k, g in enumerate(self.goals) if self.face(g) != faces[k] and k not in self.waiting]
        return found

    def end(self):
        if self.store is None:
            return 'no'
        self.waiting, self.verdicts = list(range(len(self.goals))), {}
        for _ in range(self.turns):
            if not self.waiting:
                return 'yes'
            number = self.waiting.pop(0)
            self.verdicts[number] = self.turn(number)
            if self.verdicts[number] == 'fail':
                return 'no'
        return 'stopped' if self.waiting else 'yes'


def written(term, name_of=str):
    """The term's text; `name_of` writes a variable."""
    if term[0] == 'int':
        return str(term[1])
    if term[0] == 'var':
        return name_of(term[1])
    return term[1] + ('(' + ','.join(written(t, name_of) for t in term[2]) + ')' if term[2] else '')


def intervals(values):
    """A finite domain's text."""
    parts = []
    for value in sorted(values):
        if parts and parts[-1][1] == value - 1:
            parts[-1][1] = value
        else:
            parts.append([value, value])
    return '[' + ', '.join(str(a) if a == b else '%d..%d' % (a, b) for a, b in parts) + ']'


def answer(clauses, named, blanks, items, depth=1000, turns=10000):
    """The exit status and the answer to a program and its query."""
    run = Run(clauses, named, blanks, items, depth, turns)
    end = run.end()
    if end == 'no':
        return 1, 'no\n'
    columns, domains = run.store
    lines = ['%s = %s' % (name, written(term, lambda n: '_%d' % n)) for name, term in zip(named, columns)]
    lines += ['_%d :: %s' % (v, intervals(domains[v])) for v in sorted(variables(columns[:len(named)])) if domains[v]]
    lines += ['unfinished %d' % (k + 1) for k in sorted(run.verdicts) if run.verdicts[k] == 'unfinished']
    return {'yes': 0, 'stopped': 4}[end], ''.join(line + '\n' for line in lines + [end])
