"""Writes the proof of a function that is a chain of calls over lent slices and references: a walk of its MIR in the
program logic, from `abbrev stayed` to the end of a Proof.antt. A function is described by its parameters, its contract
as text and its statements (see functions.py); names of machine values, lifetimes, shares and positions are made here.

In the texts of a description
  x         what the parameter x is at the entry; a local's value
  x-now     what is lent, given or copied out of a reference, as it is at a call
  x′        what a lent x is at the end, of the call or of the function
  r         the result, of the call or of the function
and in the proofs (`why` of a call, `end` of a function)
  e₁ l₁-x   what call 1 ensures, and that the slice x has kept its length in it
  r₁ z₁     its result, and the last values of its arguments, a tuple: `last(1, 2)` writes the third
  fit       what the function itself asks
"""
import copy
import re

from kinds import Array, Bool, FIELDS, MutRef, MutSlice, ShrSlice, Sint, Uint, Unit, dots
from walk import Walk, load, operands, part, sub

GHOST = '{M : Type 1} (𝓤 : URA M) (H : Heap 𝓤) (A : Atoms 𝓤)'
RUN = '(mem : Memory → SProp 𝓤) (run : Routine → Fun 𝓤)'


def tup(xs):
    """A right-nested tuple that ends in tt."""
    text = 'tt'
    for x in reversed(xs):
        text = '(%s, %s)' % (x, text)
    return text


def prod(xs):
    """The type of such a tuple."""
    text = 'Unit {0}'
    for x in reversed(xs):
        text = '(%s × %s)' % (x, text)
    return text[1:-1] if text.startswith('(') else text


def cons(xs):
    """A list."""
    return ' ∷ '.join(list(xs) + ['[]'])


def last(call, i):
    """The last value of argument i of a call."""
    return '(z%s %s)' % (sub(call), dots(i))


class Step:
    """A statement: `op` says which."""

    def __init__(self, op, **fields):
        self.op = op
        self.__dict__.update(fields)


def Len(local, x):
    """let LOCAL = X.len();"""
    return Step('len', local=local, x=x)


def Field(local, x, name):
    """let LOCAL = X.NAME; at a struct by value, a number."""
    return Step('field', local=local, x=x, name=name)


def Let(local, x):
    """let mut LOCAL = X; at a parameter by value, so that it can be lent."""
    return Step('let', local=local, x=x)


def Deref(local, x):
    """let LOCAL = *X;"""
    return Step('deref', local=local, x=x)


def Call(C, path, args, result, said, to=None, also=None, asked=None, why=None, fits=None):
    """let TO = PATH(ARGS); where C names its contract in the proof. ARGS is text: a parameter or local by its name,
    `true`, `x.len()`, `*x`, `&mut x` (a local is lent; an array as a slice), `front x n` (`&x[..n]` of a local array,
    where `fits` shows that it has n elements), `give x` (a `&mut [T]` passed on for good), `lend x` (lent for the call),
    `share x` (lent as `&[T]`). `said` is what it ensures, `also` its second clause; `asked` what it requires and `why`
    the proof of that. With to='' its result is the function's."""
    return Step('call', C=C, path=path.split('::'), text=args, result=result, said=said, to=to, also=also, asked=asked,
                why=why, fits=fits)


def Store(x, field):
    """*X = S.FIELD; where S is the result of the last call."""
    return Step('store', x=x, field=field, left=False)


def Give(field):
    """S.FIELD as the function's result."""
    return Step('give', field=field)


def Return(local):
    """A local as the function's result."""
    return Step('return', local=local)


class Local:
    """A `let`: its number, its type, its value and the proof that the value fits."""

    def __init__(self, i, kind, value, proof):
        self.i, self.kind, self.value, self.proof = i, kind, value, proof


class Arg:
    """An argument of a call: how it is passed, and what."""

    def __init__(self, how, x, kind=None, count=None):
        self.how, self.x, self.kind, self.count = how, x, kind, count

    array = property(lambda self: self.how in ('array', 'front'))
    lends = property(lambda self: self.how in ('lend', 'share', 'mut') or self.array)
    slice = property(lambda self: self.how in ('give', 'copy') or self.lends)
    changes = property(lambda self: self.how in ('lend', 'give', 'mut', 'array'))
    binds = property(lambda self: self.how in ('local', 'deref'))
    name = property(lambda self: self.x + '-now' if self.how == 'deref' else self.x)


class Fn:
    """A function: its path, parameters, result, contract, statements, the proof `end` of the contract, what it asks,
    and text that stands `before` the calls and text of `laws` before the walk."""
    loops = False
    # what a walk takes of the tables of functions and loops
    TABLES = {'bind': '(C : Calls 𝓤 H) (Λ : Loops 𝓤 H) → FmC 𝓤 H (W .laws) C', 'names': 'C Λ fm', 'C': 'C',
              'both': 'C Λ', 'at': '(𝓣 .C) (𝓣 .Λ) (fmOf 𝓤 H (W .laws) 𝓣)'}

    def __init__(self, path, params, result, said, steps, end, fit=None, before=None, laws=None, story='', uses=()):
        self.path, self.params, self.result, self.said, self.steps = path.split('::'), params, result, said, steps
        self.end, self.fit, self.before, self.laws, self.story, self.uses = end, fit, before, laws, story, uses
        self.name = self.path[-1]
        self.P = [p for p, _ in params]
        self.kind = dict(params)
        self.refs = [p for p, k in params if isinstance(k, (MutRef, MutSlice, ShrSlice))]
        self.life = {p: i for i, p in enumerate(self.refs)}
        self.idx = {p: i + 1 for i, p in enumerate(self.P)}
        self.muts = [p for p, k in params if isinstance(k, MutSlice)]
        self.mrefs = [p for p, k in params if isinstance(k, MutRef)]
        self.changed = [p for p in self.P if p in self.muts or p in self.mrefs]
        self.calls = [s for s in steps if s.op == 'call']
        for m, c in enumerate(self.calls):
            c.m, c.sub = m + 1, sub(m + 1)
        self.number_locals()
        given = {a.x for c in self.calls for a in c.args if a.how == 'give'}
        self.kept = {p for p in self.muts if p not in given}

    def wrong(self, old, new):
        """The same function, but its first call takes the argument `new` where it should take `old`."""
        def other(text):
            return re.sub(r'(?<![\w-])%s(?![\w-])' % re.escape(old), new, text, count=1)
        first = copy.copy(self.calls[0])
        first.text, first.said = other(first.text), other(first.said)
        return self.with_steps([first if s is self.calls[0] else copy.copy(s) for s in self.steps])

    def leaving(self, x):
        """The same function, but what x points to is left as it was."""
        steps = [copy.copy(s) for s in self.steps]
        next(s for s in steps if s.op == 'store' and s.x == x).left = True
        return self.with_steps(steps)

    def with_steps(self, steps):
        """The same function with other statements."""
        return Fn('::'.join(self.path), self.params, self.result, self.said, steps, self.end, self.fit, self.before,
                  self.laws, self.story, self.uses)

    # ---- locals of the MIR: the result, the parameters, the lets, then the temporaries in order; a temporary by value
    # is used again by the next call that needs one of its type, a lent slice's is not
    def number_locals(self):
        """Gives each let its number, each call its arguments and their temporaries."""
        self.local, n = {}, len(self.P) + 1
        for s in self.steps:
            name = s.local if s.op in ('len', 'field', 'deref', 'let') else s.to if s.op == 'call' else None
            if name:
                self.local[name] = self.let(s, n)
                n += 1
        self.lets = dict(self.local)
        # a local that is lent lies in memory, and is copied into a temporary where it is passed by value
        memory = set(re.findall(r'(?:&mut|front) (\w+)', ' '.join(c.text for c in self.calls)))
        self.unit, pool = None, {}
        for c in self.calls:
            c.args = [self.arg(t.strip()) for t in c.text.split(',') if t]
            c.first, c.made = False, None
            if c.to in memory:
                c.made, n = n, n + 1
            if isinstance(c.result, Unit) and self.unit is None:
                self.unit, c.first, n = n, True, n + 1
            c.tmp, c.fresh, used = {}, set(), {}
            for i, a in enumerate(c.args):
                if a.how == 'mut':
                    c.tmp[i], n = n, n + 1
                elif a.lends or a.how == 'give':
                    c.tmp[i], n = (n, n + 1), n + 2
                elif a.how in ('len', 'deref') or (a.how == 'local' and a.x in memory):
                    there, j = pool.setdefault(a.kind.row, []), used.get(a.kind.row, 0)
                    used[a.kind.row] = j + 1
                    if j == len(there):
                        there.append(n)
                        c.fresh.add(i)
                        n += 1
                    c.tmp[i] = there[j]
        self.N = n

    def let(self, s, i):
        """What a let is known to hold."""
        if s.op == 'len':
            return Local(i, Uint('usize'), 'length %s' % s.x, '%s-room .0' % s.x)
        if s.op == 'field':
            k = self.kind[s.x]
            s.at = FIELDS[k.name].index(s.name)
            return Local(i, Uint('usize'), '%s .%s' % (s.x, s.name), k.owed(s.x, s.x + '-is', s.at) + ' .1')
        if s.op == 'let':
            return Local(i, self.kind[s.x], s.x, self.proof(s.x))
        if s.op == 'deref':
            return Local(i, self.kind[s.x].inner, s.x, self.behind(s.x))
        known = None if isinstance(s.result, Array) else s.result.known('r' + s.sub, 'is' + s.sub)
        return Local(i, s.result, 'r' + s.sub, known)

    def behind(self, p):
        """The proof that what a reference points to fits, once its borrow is open."""
        return p + '-is .1' if isinstance(self.kind[p].inner, Uint) else p + '-is'

    def arg(self, text):
        """An argument, from its text."""
        if text in ('true', 'false'):
            return Arg('literal', text, Bool())
        if re.fullmatch(r'\d+[ui]\w+', text):
            x, type = re.match(r'(\d+)(\w+)', text).groups()
            return Arg('literal', x if type[0] == 'u' else '(pos %s)' % x, (Uint if type[0] == 'u' else Sint)(type))
        if text.endswith('.len()'):
            return Arg('len', text[:-6], Uint('usize'))
        if text.startswith('*'):
            return Arg('deref', text[1:], self.kind[text[1:]].inner)
        if text.startswith('&mut '):
            kind = self.local[text[5:]].kind
            return Arg('array' if isinstance(kind, Array) else 'mut', text[5:], kind)
        if text.startswith('front '):
            x, count = text.split(' ')[1:]
            return Arg('front', x, self.local[x].kind, count)
        if ' ' in text:
            return Arg(*text.split(' '))
        if text in self.local:
            return Arg('local', text, self.local[text].kind)
        return Arg('copy', text) if text in self.refs else Arg('value', text, self.kind[text])

    # ---- texts of a parameter
    def kappa(self, p):
        """A reference's lifetime."""
        return 'κ' + sub(self.life[p])

    def share(self, p):
        """The share of that lifetime which the walk has."""
        return 'q' + sub(self.life[p])

    def token(self, p):
        """That share, as an entry of the context."""
        return '‵ (flft %s %s)' % (self.kappa(p), self.share(p))

    def rec(self, p, name=None, now=None):
        """The reference p, with the name and the value that it has."""
        return 'record { ptr = (%s-b, %s-o); name = %s; now = %s }' % (p, p, name or p + '-γ', now or p)

    def slice_val(self, p):
        """A slice's machine value: pointer and count."""
        return 'sliceVal (%s-b, %s-o) (length %s)' % (p, p, p)

    def machine(self, p):
        """A parameter's machine value."""
        if p in self.mrefs:
            return 'vptr %s-b %s-o' % (p, p)
        return self.slice_val(p) if p in self.refs else self.kind[p].val(p)

    def type(self, p):
        """What a parameter is in the logic."""
        k = self.kind[p]
        if p in self.mrefs:
            return 'RefT ' + k.denot
        return 'RefT (%s)' % k.list if p in self.refs else k.denot

    def row(self, p, kappa=None):
        """A parameter's row: its type, with what it owns."""
        k = self.kind[p]
        if p not in self.refs:
            return k.row
        word = 'MutRef' if p in self.mrefs else k.word + 'Slice'
        return '%s (named %d) %s %s' % (word, self.life[p], kappa or self.kappa(p), k.row)

    def own(self, p, kappa=None, name=None, now=None, row=None):
        """What the walk has of a slice."""
        return '‵ (%s .own (%s) (%s ∷ []))' % (row or self.row(p, kappa), self.rec(p, name, now), self.slice_val(p))

    def proof(self, p):
        """The proof that a parameter by value fits."""
        return 'refl' if isinstance(self.kind[p], Bool) else '%s-%s' % (p, self.kind[p].suffix)

    def owned(self, p):
        """The step that makes a parameter by value owned."""
        return self.kind[p].owned(p, self.proof(p))

    def stays(self, p):
        """What the function does with a parameter: keeps it, or gives it on."""
        k, j = self.kind[p], self.life.get(p)
        if p in self.mrefs:
            return 'stay-ref (%d ∷ []) tt (plain (λ _. %s))' % (j, k.row)
        if p in self.muts:
            return '%s-slice (%d ∷ []) tt (plain (λ _. %s))' % ('stay' if p in self.kept else 'gave', j, k.row)
        if p in self.refs:
            return 'stay-none-slice (%d ∷ []) tt (plain (λ _. %s)) yes' % (j, k.row)
        return 'stay-none (λ _. %s) yes' % k.row

    def goes(self, p):
        """The law that goes with that."""
        k, j, n = self.kind[p], self.life.get(p), len(self.refs)
        if p in self.mrefs:
            return 'goes-ref 𝓤 H A W %d %d tt (plain (λ _. %s))' % (n, j, k.row)
        if p in self.muts:
            gave = '' if p in self.kept else 'gave-'
            return 'goes-%sslice 𝓤 H A W %d %d tt (plain (λ _. %s))' % (gave, n, j, k.row)
        if p in self.refs:
            return 'goes-none-slice 𝓤 H A W %d (%d ∷ []) tt (plain (λ _. %s)) yes' % (n, j, k.row)
        return 'goes-none 𝓤 H A W %d (λ _. %s) yes (λ κs x f. refl)' % (n, k.row)

    def spelt(self, p):
        """How a parameter's machine value is spelt, and that it is."""
        k = self.kind[p]
        if p not in self.refs:
            return k.vals, k.tells
        at = '(named %d) (κs %s) %s' % (self.life[p], dots(self.life[p]), k.row)
        if p in self.mrefs:
            return 'ptr-vals', 'mut-tells ' + at
        return 'slice-vals', '%s-slice-tells %s' % (k.word.lower(), at)

    def typed(self, p):
        """That a parameter's machine value has its type."""
        if p in self.mrefs:
            return '(tt, tt)'
        if p in self.refs:
            return '(tt, (tt, (record { fits = %s-room .0 }, tt)))' % p
        return self.kind[p].typed(p, self.proof(p))

    # ---- the parts of the file
    def text(self):
        """The whole proof, from `abbrev stayed`."""
        def own(text):
            return [text.strip('\n') + '\n'] if text else []
        parts = [self.opening(), self.module()] + own(self.before) + [self.callee(c)
            for c in self.calls] + [self.exits()] + own(self.laws)
        return '\n'.join(parts + [self.walk(), self.closing()])

    def opening(self):
        """What becomes of each parameter, and the contracts of the callees."""
        out = ['abbrev stayed : Stays (f.ended .signature .params) (f.ended .kept)\nstayed = %s\n'
               % tup([self.stays(p) for p in self.P])]
        if self.calls:
            out.append('-- the contract%s that the proof cites' % ('s' if len(self.calls) > 1 else ''))
        for c in self.cited():
            out.append('abbrev %s : %s %s → Contract 𝓤\n%s 𝓤 H A mem run = tripleOf 𝓤 H A %s-f.signature (%s-f.spec 𝓤'
                       ' H A mem run)\n'
                       % (c.C, GHOST, RUN, c.C, c.C, c.C))
        return '\n'.join(out)

    def cited(self):
        """Each contract once."""
        first = {}
        for c in self.calls:
            first.setdefault(c.C, c)
        return list(first.values())

    def module(self):
        """What the walk is over: lifetimes, shares, values, and the facts about them."""
        values, facts = [], []
        for p in self.P:
            k = self.kind[p]
            if p in self.mrefs:
                values.append('(%s-b %s-o : ℕ) (%s-γ : GName) (%s : %s)' % (p, p, p, p, k.denot))
            elif p in self.refs:
                values.append('(%s-b %s-o : ℕ) (%s-γ : GName) (%s : %s)' % (p, p, p, p, k.list))
                facts.append('(%s-room : Room %s (length %s))' % (p, k.row, p))
            else:
                values.append('(%s : %s)' % (p, k.denot))
                if not isinstance(k, Bool):
                    facts.append('(%s-%s : %s)' % (p, k.suffix, k.fact(p)))
        kappas, shares = ' '.join(map(self.kappa, self.refs)), ' '.join(map(self.share, self.refs))
        fit = '\n    (fit : %s)' % self.fit if self.fit else ''
        return '\n'.join([
            'module _ %s (W : Given 𝓤 H A) (at-mem : Memory → SProp 𝓤) (run : Routine → Fun 𝓤) (%s : Lft) (%s :'
            ' Share)\n    %s\n    %s%s where'
            % (GHOST, kappas, shares, ' '.join(values), ' '.join(facts), fit),
            '  abbrev Arg : Type 0\n  Arg = %s\n' % prod([self.type(p) for p in self.P]),
            '  abbrev a : Arg\n  a = %s\n' % tup([self.rec(p) if p in self.refs else p for p in self.P]),
            '  abbrev vals : %s\n  vals = %s\n' % (prod(['List Val'] * len(self.P)),
                tup([self.machine(p) + ' ∷ []' for p in self.P])),
            '  abbrev Post : Val → SProp 𝓤\n  Post = walkOf 𝓤 H A f.ended stayed (f.clauses 𝓤 H A at-mem run) .post'
            ' (%s)\n' % self.bound()])

    def lifetimes(self):
        """All lifetimes, as a tuple."""
        return tup([self.kappa(p) for p in self.refs])

    def shares(self):
        """All shares, as a tuple."""
        return tup([self.share(p) for p in self.refs])

    def bound(self):
        """What the function's own triple binds."""
        return '((%s, %s, tt, a, vals), tt)' % (self.lifetimes(), self.shares())

    # ---- a call: what its triple binds, ensures and asks, and that the caller has it
    def binders(self, c):
        """What a call's triple binds that is only known at the call."""
        out = []
        for a in c.args:
            if a.how == 'mut' or a.array:
                out.append((a.x + '-b', 'ℕ'))
            if a.lends:
                out += [(a.x + '-ν', 'ℕ'), (a.x + '-δ', 'GName')]
            if a.how == 'front':
                out.append((a.x + '-n', 'ℕ'))
            if a.lends or a.how == 'give':
                out.append((a.x + '-now', self.content(a)))
            elif a.binds:
                out.append((a.name, a.kind.denot))
        return out

    def content(self, a):
        """The type of what is lent or given."""
        return a.kind.denot if a.how == 'mut' else a.kind.list if a.array else self.kind[a.x].list

    def in_array(self, a, nu, b, name, now, count):
        """What the walk has of a slice of a local array, which lies in block b; the reference, and its machine value."""
        ref = 'record { ptr = (%s, 0); name = %s; now = %s }' % (b, name, now)
        value = 'sliceVal (%s, 0) %s ∷ []' % (b, count)
        return '‵ (%sSlice (named %d) (%s ∷ []) %s .own (%s) (%s))' % (
            'Mut' if a.changes else 'Shr', len(self.refs), nu, a.kind.of, ref, value), ref, value

    def counted(self, a, at_call=False):
        """How many elements of a local array are lent."""
        if a.how == 'array':
            return str(a.kind.count)
        return '(%s)' % self.local[a.count].value if at_call else a.x + '-n'

    def behind_local(self, a, nu, b, name, now):
        """What the walk has of a reference to a local, which lies in block b; and the reference itself."""
        ref = 'record { ptr = (%s, 0); name = %s; now = %s }' % (b, name, now)
        return '‵ (MutRef (named %d) (%s ∷ []) %s .own (%s) (vptr %s 0 ∷ []))' % (len(self.refs), nu, a.kind.row, ref,
            b), ref

    def passed(self, c):
        """The arguments: their types, values, machine values, and the lifetimes and shares of those that are lent."""
        types, values, machine, kappas, shares = [], [], [], [], []
        for a in c.args:
            if a.how == 'mut':
                types.append('RefT ' + a.kind.denot)
                values.append(self.behind_local(a, '', a.x + '-b', a.x + '-δ', a.x + '-now')[1])
                machine.append('vptr %s-b 0 ∷ []' % a.x)
                kappas.append(a.x + '-ν ∷ []')
                shares.append('fullShare')
                continue
            if a.array:
                _, ref, value = self.in_array(a, '', a.x + '-b', a.x + '-δ', a.x + '-now', self.counted(a))
                types.append('RefT (%s)' % a.kind.list)
                values.append(ref)
                machine.append(value)
                kappas.append(a.x + '-ν ∷ []')
                shares.append('fullShare')
                continue
            if a.slice:
                types.append(self.type(a.x))
                machine.append(self.slice_val(a.x) + ' ∷ []')
                kappas.append(a.x + '-ν ∷ []' if a.lends else self.kappa(a.x))
                shares.append('fullShare' if a.lends else self.share(a.x))
                now = None if a.how == 'copy' else a.x + '-now'
                values.append(self.rec(a.x, a.x + '-δ' if a.lends else None, now))
                continue
            x = '(length %s)' % a.x if a.how == 'len' else a.name
            types.append(a.kind.denot)
            values.append(x[1:-1] if a.how == 'len' else x)
            machine.append(a.kind.val(x) + ' ∷ []')
        return prod(types), tup(values), tup(machine), tup(kappas), tup(shares)

    def callee(self, c):
        """passedN, toN, SaidN, AskedN and goesN of a call."""
        names = ''.join(' ' + n for n, _ in self.binders(c))
        binds = ''.join('(%s : %s) ' % b for b in self.binders(c))
        arrow = binds + '→ ' if binds else ''
        types, values, machine, kappas, shares = self.passed(c)
        m = c.sub
        lasts = [a.x for a in c.args if a.changes]
        ends = ''.join(' (%s′ : %s)' % (a.x, self.content(a)) for a in c.args if a.changes)
        head = '  -- `%s`: what its triple binds, what it ensures%s' % (c.path[-1], ', and what it asks'
            if c.asked else '')
        out = [head, '  abbrev passed%s : %s%s\n  passed%s%s = %s\n' % (m, arrow, types, m, names, values),
               '  abbrev to%s : %s%s 𝓤 H A at-mem run .Ghost\n  to%s%s = ((%s, %s, tt, passed%s%s, %s), tt)\n'
               % (m, arrow, c.C, m, names, kappas, shares, m, names, machine)]
        for word, said in (('Said', c.said), ('Also', c.also)):
            if said:
                out.append('  abbrev %s%s : %s(r : %s)%s → Type 0\n  %s%s%s r%s = %s\n'
                           % (word, m, binds, c.result.denot, ends, word, m, names, ''.join(' %s′' % x for x in lasts),
                              said))
        if c.asked:
            out.append('  abbrev Asked%s : %sType 0\n  Asked%s%s = %s\n' % (m, arrow, m, names, c.asked))
        return '\n'.join(out + [self.reached(c, names, binds)])

    def reached(self, c, names, binds):
        """goesN: what the caller has is what the call asks."""
        m, slices = c.sub, [a for a in c.args if a.slice]
        items = [('t' + a.x, '‵ (flft (%s) %s)' % ((a.x + '-ν ∷ []', 'fullShare') if a.lends else (self.kappa(a.x),
            self.share(a.x))))
                 for a in slices]
        for a in slices:
            if a.how == 'mut':
                items.append(('o' + a.x, self.behind_local(a, a.x + '-ν', a.x + '-b', a.x + '-δ', a.x + '-now')[0]))
            elif a.array:
                own = self.in_array(a, a.x + '-ν', a.x + '-b', a.x + '-δ', a.x + '-now', self.counted(a))[0]
                items.append(('o' + a.x, own))
            elif a.lends:
                row = '%sSlice (named %d) (%s-ν ∷ []) %s' % ('Mut' if a.how == 'lend' else 'Shr', self.life[a.x], a.x,
                    self.kind[a.x].row)
                items.append(('o' + a.x, self.own(a.x, name=a.x + '-δ', now=a.x + '-now', row=row)))
            else:
                now = a.x + '-now' if a.how == 'give' else None
                items.append(('o' + a.x, self.own(a.x, '(%s)' % self.kappa(a.x), now=now)))
        context = cons(t for _, t in items)
        X = Walk(6)
        X.ctx = [n for n, _ in items]
        steps = ('says ! asked $ ' if c.asked else '') + self.join_tokens(X, [a.x for a in slices])
        acc = 'acc2'
        if c.asked:
            steps += 'frame ! $ '
            X.ctx = X.ctx[1:]
        steps += 'nothing ! $ '
        X.ctx.insert(0, acc)
        for a in reversed(c.args):
            if a.slice:
                steps += X.pull('o' + a.x, acc) + 'fjoin ! $ '
                X.swap(['o' + a.x, acc], [acc])
            else:
                steps += X.pull(acc) + self.argument(a) + 'fjoin ! $ '
        steps += 'done !' if c.asked else X.pull('acc', acc) + 'join ! $ frame ! $ done !'
        bound = [a for a in c.args if a.binds]
        facts = ''.join('(%s-%s′ : %s) ' % (a.name, a.kind.suffix, a.kind.fact(a.name)) for a in bound)
        fnames = ''.join(' %s-%s′' % (a.name, a.kind.suffix) for a in bound)
        arrow = binds + facts + '→ ' if binds + facts else ''
        asked = 'Asked%s%s → ' % (m, names) if c.asked else ''
        return ('  goes%s : %s%sent 𝓤 (⋆ 𝓤 H A (%s)) (%s 𝓤 H A at-mem run .pre (to%s%s))\n'
                '  goes%s%s%s%s = qed W (%s) ∵ %s\n') % (
            m, arrow, asked, context, c.C, m, names, m, names, fnames, ' asked' if c.asked else '', context, steps)

    def join_tokens(self, X, refs):
        """The steps that join the tokens of these references into one entry."""
        steps = 'nothing ! $ '
        X.ctx.insert(0, 'acc')
        for p in reversed(refs):
            steps += X.pull('t' + p, 'acc') + 'join ! $ '
            X.swap(['t' + p, 'acc'], ['acc'])
        return steps

    def argument(self, a):
        """An argument by value is owned."""
        if a.how == 'literal':
            return a.kind.owned(a.x, {Bool: 'refl', Uint: 'lit< tt', Sint: '(refl, lit< tt)'}[type(a.kind)])
        if a.how == 'len':
            return a.kind.owned('(length %s)' % a.x, '%s-room .0' % a.x)
        if a.how == 'value':
            return self.owned(a.x)
        return a.kind.owned(a.name, '%s-%s′' % (a.name, a.kind.suffix))

    # ---- the end: what the walk has there is what the function's triple asks
    def held(self):
        """What the walk has at the end, by name: for each reference its borrow or last value, and its token."""
        out = []
        for p in self.refs:
            k = self.kind[p]
            if p in self.mrefs:
                out += [('b' + p, '‵ (fobs %s-γ (%s .coded .code %s′))' % (p, k.row, p)),
                        ('c' + p, '‵ (fbor %s (Body (mem %s) %s-b %s-o %s-γ))' % (self.kappa(p), k.row, p, p, p))]
            elif p in self.muts and p not in self.kept:
                out.append(('o' + p, '‵ (finally %s %s-γ %s′)' % (k.row, p, p)))
            else:
                out.append(('o' + p, self.own(p, now=p + '′' if p in self.muts else None)))
            out.append(('t' + p, self.token(p)))
        return out

    def exits(self):
        """exits: from what the walk has at its end to the postcondition."""
        k = self.result
        context = cons(t for _, t in self.held())
        X = Walk(6)
        X.ctx = [n for n, _ in self.held()]
        steps = self.join_tokens(X, self.refs) + 'frame ! $ '
        X.ctx = X.ctx[1:]
        steps += 'nothing ! $ '
        X.ctx.insert(0, 'acc')
        for p in reversed(self.P):
            if p in self.mrefs:
                steps += X.pull('b' + p, 'c'
                                + p) + 'feqI ! (List Val) (%s ∷ []) (%s ∷ []) refl $ fjoin3 ! $ ' % (self.machine(p),
                                    self.machine(p))
                X.swap(['b' + p, 'c' + p], ['o' + p])
            if p in self.refs:
                steps += X.pull('o' + p, 'acc') + 'fjoin ! $ '
                X.swap(['o' + p, 'acc'], ['acc'])
            else:
                steps += X.pull('acc') + self.owned(p) + 'fjoin ! $ '
        steps += 'frame ! $ ' + k.owned('r', 'is') + 'done !'
        said = '(%s)' % self.said if re.match(r'\([\w ]+ : ', self.said) else self.said
        primes = ''.join("(%s′ : %s) " % (p, self.kind[p].list if p in self.muts else self.kind[p].denot)
                         for p in self.changed)
        lengths = ''.join('length %s′ ≡ length %s → ' % (p, p) for p in self.muts)
        return ('  exits : (r : %s) %s→ %s → %s%s → ent 𝓤 (⋆ 𝓤 H A (%s)) (Post (%s))\n  exits r %ssaid %sis =\n     '
                ' qed W (%s) ∵\n'
                '      suffices ! _ (ends-at 𝓤 H A f.ended stayed (f.clauses 𝓤 H A at-mem run) W (%s) (%s) r %s %s) $'
                ' says ! said $\n      %s\n') % (
            k.denot, primes, said, lengths, k.fact('r'), context, k.val('r'), ''.join('%s′ ' % p for p in self.changed),
            ''.join('%s-len ' % p for p in self.muts), context, self.bound(), k.val('r'),
            tup(['%s′' % p if p in self.changed else 'tt' for p in self.P]),
            tup(['%s-len' % p if p in self.muts else 'tt' for p in self.P]), steps)

    # ---- the walk
    def walk(self):
        """The walk, statement by statement."""
        w = self.w = Walk()
        self.local = dict(self.lets)
        self.now, self.length = {p: p for p in self.muts}, {p: 'refl' for p in self.muts}
        self.stored, self.final, self.noted = {}, {}, False
        w.alloc(self.N, ['tok', 'owns'], [self.typed(p) for p in self.P])
        text, cur = '', 'owns'
        for p in self.P:
            text += w.pick(cur, 'o' + p if p in self.refs else '', 'junk-r')
            cur = 'junk-r'
        cur = 'tok'
        for p in self.refs:
            text += w.pick(cur, 'k' + p, 'junk-ts', how='split')
            cur = 'junk-ts'
        w.line(text.rstrip())
        for p in self.mrefs:
            self.open_borrow(p)
        w.note()
        result = None
        for s in self.steps:
            result = getattr(self, 'do_' + s.op)(s) or result
        for p in self.mrefs:
            self.close_borrow(p)
        for x, local in self.local.items():
            if isinstance(local.kind, Array):
                self.array_out(x, local)
        w.ret(self.N)
        self.leave(result)
        return self.framed(w.close())

    def open_borrow(self, p):
        """Opens the borrow of a `&mut T`: the walk then has the cell itself."""
        w, k = self.w, self.kind[p]
        at = '%s (Is %s) (shows 𝓤 H A %s)' % (k.row, k.row, k.row)
        w.line((w.pick('o' + p, '', 'b' + p, 'c' + p, how='fsplit3') + w.pull('b' + p, 'c' + p, 'k' + p)).rstrip())
        w.line('opens ! tt %s {h = %s} %s-b %s-o (λ %s-vs. spelt ! %s (%s) (%s) fullShare %s %s-vs %s-b %s-o $'
               % (k.row, p, p, p, p, at, k.inner.vals, k.inner.tells, p, p, p, p))
        w.swap(['b' + p, 'c' + p, 'k' + p], ['cell' + p, 'own' + p, 'obor' + p, 'obs' + p, 'auth' + p])
        w.line(w.pull('own' + p) + 'peeks ! %s %s (%s %s) (λ %s-is. drop ! $' % (at, p, k.inner.vals, p, p))
        w.ctx.remove('own' + p)

    def close_borrow(self, p):
        """Closes it again, at what was stored."""
        w, k = self.w, self.kind[p]
        value, proof = self.stored[p]
        w.line('owned ! %s (Is %s) (%s) (%s) _ (%s) $' % (k.row, k.row, k.inner.makes, value, proof))
        w.ctx.insert(0, 'own' + p)
        parts = ['cell' + p, 'own' + p, 'obor' + p, 'obs' + p, 'auth' + p]
        w.line(w.pull(*parts) + 'closes ! tt %s (%s) (%s ∷ []) %s-b %s-o $'
               % (k.row, value, k.inner.val('(%s)' % value), p, p))
        w.swap(parts, ['b' + p, 'c' + p, 'k' + p])

    def leave(self, result):
        """The end of the walk: what exits asks is kept, in its order."""
        keep = ['k' + n[1:] if n[0] == 't' else self.final.get(n[1:], n) if n[0] == 'o' else n for n, _ in self.held()]
        ends = ''.join(' (%s)' % (self.now[p] if p in self.muts else self.stored[p][0]) for p in self.changed)
        lengths = ''.join(' (%s)' % self.length[p] for p in self.muts)
        self.w.line('keep ! (%s ∷ []) $ by ! (exits (%s)%s (%s)%s (%s))'
                    % (' ∷ '.join(str(self.w.at(n)) for n in keep), result[0], ends, self.end, lengths, result[1]))

    # ---- statements other than calls
    def assign(self, operand, i, typed, how='init'):
        """Local i gets an operand."""
        self.w.line('assigns ! (of-opd ! (%s)) (from ! (stop !)) (%s ! «_%d» refl %s) $' % (operand, how, i, typed))

    def do_len(self, s):
        local = self.local[s.local]
        self.assign(part(self.idx[s.x], 1), local.i, local.kind.typed(None, local.proof))

    def do_field(self, s):
        local = self.local[s.local]
        self.assign(part(self.idx[s.x], s.at), local.i, local.kind.typed(None, local.proof))

    def do_let(self, s):
        local = self.local[s.local]
        self.assign(load(self.idx[s.x]), local.i, local.kind.typed(s.x, local.proof))

    def do_deref(self, s):
        self.copied_out(s.x, self.local[s.local].i)

    def copied_out(self, x, i, how='init'):
        """Local i gets what a reference points to."""
        inner = self.kind[x].inner
        look = 'look' if isinstance(inner, Uint) else 'look-raw'
        self.assign('load ! (from ! (hop ! (look ! «_%d» refl) (stop !))) (%s ! «cell%s» refl)'
                    % (self.idx[x], look, x), i,
                    inner.typed(x, self.behind(x)), how)

    def result_field(self, name):
        """A field of the last call's result: its position, value and proof."""
        c = self.calls[-1]
        at = FIELDS[c.result.name].index(name)
        return c, at, 'r%s .%s' % (c.sub, name), c.result.owed('r' + c.sub, 'is' + c.sub, at)

    def do_store(self, s):
        if s.left:
            self.w.note('%s is left as it was' % s.x)
            self.stored[s.x] = (s.x, self.behind(s.x))
            return
        c, at, value, proof = self.result_field(s.field)
        if not self.noted:
            self.w.note('what was returned is stored, and the borrows are closed; the answer is the result')
            self.noted = True
        store = 'store' if isinstance(self.kind[s.x].inner, Uint) else 'store-raw'
        self.w.line('assigns ! (of-opd ! (%s)) (from ! (hop ! (look ! «_%d» refl) (stop !))) (%s ! «cell%s» refl'
                    ' (%s-T′.the-laws %s .lawful 𝓤 H A W .typed _ _ (%s) .0)) $'
                    % (part(self.local[c.to].i, at), self.idx[s.x], store, s.x, c.result.name, dots(at), proof))
        self.stored[s.x] = (value, proof)

    def do_give(self, s):
        c, at, value, proof = self.result_field(s.field)
        name = c.result.name
        self.assign(part(self.local[c.to].i, at), 0, '(%s-T′.the-laws %s .lawful 𝓤 H A W .typed (%s-T.the-type .to r%s'
                    ' %s) _ (%s) .0)'
                    % (name, dots(at), name, c.sub, dots(at), proof))
        return value, proof

    def do_return(self, s):
        local = self.local[s.local]
        proof = local.proof if isinstance(local.kind, Uint) else '(%s)' % local.proof
        value = '(%s)' % local.value if ' ' in local.value else local.value
        self.assign(load(local.i), 0, local.kind.typed(value, proof))
        return local.value, local.proof

    # ---- a call
    def do_call(self, c):
        """A call: its arguments made, lent and passed, its result stored, and what was lent taken back."""
        w, m = self.w, c.sub
        w.note('`%s`' % c.path[-1])
        self.temporaries(c)
        for a in c.args:
            if a.how == 'copy':
                self.copy(a.x)
        for a in c.args:
            if a.how == 'mut':
                self.lend_local(c, a)
            elif a.array:
                self.lend_array(c, a)
            elif a.lends:
                self.lend(c, a)
        to, passed = self.reach(c)
        w.line('calls-at ! fm (%s 𝓤 H A at-mem run) known-%s %s %s (λ v%s.'
               % (c.C, c.C, to, operands([self.operand(c, i, a) for i, a in enumerate(c.args)]), m))
        values = self.hear(c, passed)
        self.land(c)
        slices = [a for a in c.args if a.slice]
        text = ''
        for a in slices:
            text += w.pick('toks', ('n' if a.lends else 'k') + a.x, 'toks', how='split')
        if text:
            w.line(text.rstrip())
        w.ctx[w.ctx.index('toks')] = 'junk-t%d' % c.m
        for a in c.args:
            if a.how == 'mut':
                self.local_back(c, a, values[a.x])
            elif a.array:
                self.array_back(c, a, values)
            elif a.lends:
                self.take_back(c, a, values)
            elif a.how == 'give':
                self.final[a.x] = 'fin' + a.x
                self.ended(c, a.x, values)
        if c.to == '':
            return 'r' + m, c.result.known('r' + m, 'is' + m)

    def temporaries(self, c):
        """The temporaries of a call."""
        for i, a in enumerate(c.args):
            self.temporary(c, i, a)

    def temporary(self, c, i, a):
        """The temporary of one argument, if it has one."""
        w, how = self.w, 'init' if i in c.fresh else 'store'
        if a.how == 'mut':
            w.line('assigns ! (addr ! (from ! (stop !))) (from ! (stop !)) (init ! «_%d» refl (tt, tt)) $' % c.tmp[i])
        elif a.array:
            pointer, whole = c.tmp[i]
            n, fits = ('lit ! tt', 'lit< tt') if a.how == 'array' else (load(self.local[a.count].i),
                self.local[a.count].proof)
            w.line('assigns ! (addr ! (from ! (stop !))) (from ! (stop !)) (init ! «_%d» refl (tt, tt)) $' % pointer)
            w.line('assigns ! (agg ! %s) (from ! (stop !)) (init ! «_%d» refl (tt, (tt, (record { fits = %s }, tt)))) $'
                   % (operands([load(pointer), n]), whole, fits))
        elif a.how == 'len':
            self.assign(part(self.idx[a.x], 1), c.tmp[i], a.kind.typed(None, '%s-room .0' % a.x), how)
        elif a.how == 'deref':
            self.copied_out(a.x, c.tmp[i], how)
        elif a.how == 'local' and i in c.tmp:
            local = self.local[a.x]
            proof = local.proof if isinstance(a.kind, Uint) else '(%s)' % local.proof
            self.assign(load(local.i), c.tmp[i], a.kind.typed('(%s)' % local.value, proof), how)
        elif i in c.tmp:
            pointer, whole = c.tmp[i]
            w.line('assigns ! (addr ! (from ! (fld ! refl (hop ! (look-in ! «_%d» (sub ! 0 refl (whole !))) (stop !)))))'
                   ' (from ! (stop !)) (init ! «_%d» refl (tt, tt)) $' % (self.idx[a.x], pointer))
            w.line('assigns ! (agg ! %s) (from ! (stop !)) (init ! «_%d» refl %s) $'
                   % (operands([load(pointer), part(self.idx[a.x], 1)]), whole, self.typed(a.x)))

    def operand(self, c, i, a):
        """Argument i, as the machine has it."""
        if a.how == 'literal':
            return a.x + '-lit !' if isinstance(a.kind, Bool) else 'lit ! tt'
        if a.how in ('value', 'copy'):
            return load(self.idx[a.x])
        if a.how == 'local':
            return load(c.tmp[i] if i in c.tmp else self.local[a.x].i)
        return load(c.tmp[i] if a.how in ('len', 'deref', 'mut') else c.tmp[i][1])

    def copy(self, x):
        """A `&[T]` is Copy: one stays here."""
        w, own = self.w, self.own(x)
        w.line(w.pull('o' + x) + 'use1 W (%s ⊛ %s) (shr-slice-copy 𝓤 H A W (named %d) %s %s .twice (%s) (%s ∷ [])) $'
               ' split ! $'
               % (own, own, self.life[x], self.kappa(x), self.kind[x].row, self.rec(x), self.slice_val(x)))
        w.swap(['o' + x], ['o' + x, 'copy' + x])

    def terms(self, c, x):
        """What the laws of lending take: the row, both lifetimes, the share, the name and the place."""
        return '%s %s (ν%s-%s ∷ []) %s %s-γ %s-b %s-o' % (self.kind[x].row, self.kappa(x), c.sub, x, self.share(x), x,
            x, x)

    def lend(self, c, a):
        """A `&mut [T]` is lent for a call, under a new lifetime."""
        w, x, j = self.w, a.x, self.life[a.x]
        nu, delta, now, mut = 'ν%s-%s' % (c.sub, x), 'δ%s-%s' % (c.sub, x), '(%s)' % self.now[x], a.how == 'lend'
        w.line('lft-new ! tt (λ %s.' % nu)
        w.ctx.insert(0, 'n' + x)
        row = '%sSlice (named %d) (%s ∷ []) %s' % ('Mut' if mut else 'Shr', j, nu, self.kind[x].row)
        kept = 'LentAgain %s %s %s' % (self.terms(c, x), delta, now) if mut else 'LentShared %s %s' % (self.terms(c, x),
            now)
        w.line(w.pull('o' + x, 'k' + x) + 'use2 W (later (some (λ (%s : GName). %s ⊛ ‵ (%s)))) (lend-%s %s 𝓤 H A W'
               ' (named %d) (named %d) %s (length %s) (%s)) $ await ! tt $ pick ! (λ %s. split ! $'
               % (delta, self.own(x, name=delta, now=now, row=row), kept, 'mut' if mut else 'shr', self.terms(c, x), j,
                  j, now, x, self.length[x], delta))
        w.swap(['o' + x, 'k' + x], ['e' + x, 'lent' + x])

    def lend_local(self, c, a):
        """A local is lent by `&mut`, under a new lifetime: what it holds lies in memory, and that is lent."""
        w, x, local, k = self.w, a.x, self.local[a.x], a.kind
        nu, delta, l, cell = 'ν%s-%s' % (c.sub, x), 'δ%s-%s' % (c.sub, x), 'l' + sub(local.i), '_%d' % local.i
        value = '(%s)' % local.value
        w.line(k.owned(value, local.proof if isinstance(k, Uint) else '(%s)' % local.proof).rstrip())
        w.ctx.insert(0, 'own' + x)
        w.line(w.pull(cell, 'own' + x) + 'use2 W (‵ (mem %s .lies %s %s 0)) (part-in-at 𝓤 H A W %s refl fullShare %s %s'
               ' 0 %s refl (%s)) $' % (k.row, value, l, k.row, value, l, k.mir, k.val(value)))
        w.swap([cell, 'own' + x], ['lies' + x])
        w.line('lft-new ! tt (λ %s.' % nu)
        w.ctx.insert(0, 'n' + x)
        w.line(w.pull('lies' + x) + 'use1 W (later (some (λ (%s : GName). %s ⊛ ‵ (flent (%s ∷ []) (Body (mem %s) %s 0'
               ' %s))))) (lends-ref 𝓤 H A W %s (named %d) (%s ∷ []) %s %s 0) $ await ! tt $ pick ! (λ %s. split ! $'
               % (delta, self.behind_local(a, nu, l, delta, value)[0], nu, k.row, l, delta, k.row, len(self.refs), nu,
                  value, l, delta))
        w.swap(['lies' + x], ['e' + x, 'lent' + x])

    def local_back(self, c, a, value):
        """A local that was lent is back, and holds the last value."""
        w, x, local, k = self.w, a.x, self.local[a.x], a.kind
        nu, l, v, isv = 'ν%s-%s' % (c.sub, x), 'l' + sub(local.i), 'u%s-%s' % (c.sub, x), 'is%s-%s' % (c.sub, x)
        w.line(w.pull('n' + x) + 'lft-end ! tt $')
        w.swap(['n' + x], ['dead'])
        w.line(w.pull('dead', 'lent' + x, 'fin' + x) + 'use3 W (later (‵ (mem %s .lies (%s) %s 0))) (ref-back 𝓤 H A W'
               ' %s (%s ∷ []) δ%s-%s (%s) %s 0) $ await ! tt $' % (k.row, value, l, k.row, nu, c.sub, x, value, l))
        w.swap(['dead', 'lent' + x, 'fin' + x], ['lies' + x])
        w.line('use1 W (some (λ (%s : Val). ‵ (fat fullShare %s %s 0 %s) ⊛ ‵ (%s .own (%s) (%s ∷ [])))) (part-out-at 𝓤'
               ' H A W %s refl fullShare (%s) %s 0 %s refl) $ pick ! (λ %s. split ! $'
               % (v, k.mir, l, v, k.row, value, v, k.row, value, l, k.mir, v))
        w.swap(['lies' + x], ['_%d' % local.i, 'own' + x])
        w.line(w.pull('own' + x) + 'peeks ! %s (Is %s) (shows 𝓤 H A %s) (%s) (%s ∷ []) (λ %s. drop ! $'
               % (k.row, k.row, k.row, value, v, isv))
        w.ctx.remove('own' + x)
        w.line('rewrite ! «_%d» (λ (u : Val). ‵ (fat fullShare %s %s 0 u)) (ap only (%s (%s) _ %s)) refl $'
               % (local.i, k.mir, l, k.tells, value, isv))
        self.local[x] = Local(local.i, k, value, k.known('(%s)' % value, isv))

    def lend_array(self, c, a):
        """A local array is lent as a slice, under a new lifetime."""
        w, x, local, k = self.w, a.x, self.local[a.x], a.kind
        nu, delta, l, now = 'ν%s-%s' % (c.sub, x), 'δ%s-%s' % (c.sub, x), 'l' + sub(local.i), '(%s)' % local.value
        count, law = self.counted(a, True), 'array'
        lent, shown = 'LentA 𝓤 H A W %s (%s ∷ []) %s %d %s' % (k.of, nu, l, k.count, delta), now
        if a.how == 'front':
            law, lent, shown = 'front', 'LentFront %s %s (%s ∷ []) %s %s' % (k.terms, l, nu, now, count), '(take %s %s)' % (
                count, now)
        w.line('lft-new ! tt (λ %s.' % nu)
        w.ctx.insert(0, 'n' + x)
        w.line(w.pull('lies' + x) + 'use1 W (later (some (λ (%s : GName). %s ⊛ ‵ (%s)))) (lend-%s %s %s 𝓤 H A W'
               ' (named %d) (%s ∷ []) tt %s %s%s) $ await ! tt $ pick ! (λ %s. split ! $'
               % (delta, self.in_array(a, nu, l, delta, shown, count)[0], lent, law, k.terms, l, len(self.refs), nu,
                  k.room, now, ' %s (%s)' % (count, c.fits) if a.how == 'front' else '', delta))
        w.swap(['lies' + x], ['e' + x, 'lent' + x])

    def array_back(self, c, a, values):
        """A local array that was lent is back; lent by `&mut`, at the last value."""
        w, x, local, k = self.w, a.x, self.local[a.x], a.kind
        nu, l, now = 'ν%s-%s' % (c.sub, x), 'l' + sub(local.i), '(%s)' % local.value
        w.line(w.pull('n' + x) + 'lft-end ! tt $')
        w.swap(['n' + x], ['dead'])
        taken, law = ['dead', 'lent' + x], 'front-back %s %s 𝓤 H A W (named %d) (%s ∷ []) %s %s' % (
            k.terms, l, len(self.refs), nu, now, self.counted(a, True) if a.how == 'front' else '')
        if a.changes:
            taken, now = taken + ['fin' + x], '(%s)' % values[x]
            law = 'array-back %s %s 𝓤 H A W (named %d) (%s ∷ []) δ%s-%s %s' % (k.terms, l, len(self.refs), nu, c.sub, x,
                now)
            self.local[x] = Local(local.i, k, values[x], None)
        w.line(w.pull(*taken) + 'use%d W (later (‵ (mem %s .lies %s %s 0))) (%s) $ await ! tt $'
               % (len(taken), k.row, now, l, law))
        w.swap(taken, ['lies' + x])

    def array_out(self, x, local):
        """At the end a local array is a local like others."""
        w, k, l, now = self.w, local.kind, 'l' + sub(local.i), '(%s)' % local.value
        w.line(w.pull('lies' + x) + 'use1 W (some (λ (u-%s : Val). ‵ (fat fullShare %s %s 0 u-%s) ⊛ ‵ (%s .own %s'
               ' (u-%s ∷ [])))) (part-out-at 𝓤 H A W %s refl fullShare %s %s 0 %s refl) $ pick ! (λ u-%s. split ! $'
               ' move ! (1 ∷ []) $ drop ! $' % (x, k.mir, l, x, k.row, now, x, k.row, now, l, k.mir, x))
        w.swap(['lies' + x], ['_%d' % local.i])

    def at_call(self, c):
        """The values of what the call's triple binds, and the proofs that go with them."""
        values, proofs = [], []
        for a in c.args:
            if a.how == 'mut' or a.array:
                values.append('l' + sub(self.local[a.x].i))
            if a.lends:
                values += ['ν%s-%s' % (c.sub, a.x), 'δ%s-%s' % (c.sub, a.x)]
            if a.how == 'front':
                count = self.counted(a, True)
                values += [count, '(take %s (%s))' % (count, self.local[a.x].value)]
            elif a.lends or a.how == 'give':
                values.append('(%s)' % (self.local[a.x].value if a.how == 'mut' or a.array else self.now[a.x]))
            elif a.how == 'local':
                values.append('(%s)' % self.local[a.x].value)
                proofs.append('(%s)' % self.local[a.x].proof)
            elif a.how == 'deref':
                values.append('(%s)' % a.x)
                proofs.append('(%s)' % self.behind(a.x))
        return values, proofs

    def why(self, c):
        """The proof of what a call asks."""
        return c.why

    def reach(self, c):
        """The call's precondition, from what is in the context."""
        w, m, slices = self.w, c.sub, [a for a in c.args if a.slice]
        values, proofs = self.at_call(c)
        c.values = ''.join(' ' + v for v in values)
        to, passed = ('(to%s%s)' % (m, c.values), '(passed%s%s)' % (m, c.values)) if values else ('to' + m, 'passed'
            + m)
        goes = 'goes%s%s%s%s' % (m, c.values, ''.join(' ' + p for p in proofs), ' (%s)' % self.why(c) if c.asked else '')
        names = [('n' if a.lends else 'k') + a.x for a in slices]
        names += [{'lend': 'e', 'share': 'e', 'mut': 'e', 'array': 'e', 'front': 'e', 'give': 'o', 'copy': 'copy'}[a.how] + a.x
                  for a in slices]
        group = 'group ! %d $ ' % len(names) if len(names) > 1 else ''
        w.line(w.pull(*names) + group + 'use%d W (raw (%s 𝓤 H A at-mem run .pre %s)) (%s) $' % (1 if names else 0, c.C,
            to, goes))
        w.swap(names, ['call'])
        return to, passed

    def hear(self, c, passed):
        """What the call ensures, and the last values of what it was lent."""
        w, m = self.w, c.sub
        slices = [a for a in c.args if a.slice]
        kappas = tup(['ν%s-%s ∷ []' % (m, a.x) if a.lends else self.kappa(a.x) for a in slices])
        tokens = ' ⊛ '.join(['‵ (flft (ν%s-%s ∷ []) fullShare)' % (m, a.x) if a.lends else self.token(a.x)
                             for a in slices] + ['‵ ftrue'])
        w.line('use1 W (later (some (λ (r%s : %s). ((%s) ⊛ ‵ (%s .own r%s (v%s ∷ []))) ⊛ raw (ensured 𝓤 H A %s-f.ended'
               ' (%s-f.clauses 𝓤 H A at-mem run) %s %s tt r%s)))) (id⊢ 𝓤 _) $ await ! tt $ pick ! (λ r%s.'
               % (m, c.result.denot, tokens, c.result.row, m, m, c.C, c.C, kappas, passed, m, m))
        values = {a.x: 'z%s %s' % (m, dots(i)) for i, a in enumerate(c.args) if a.changes}
        said = '%s r%s%s' % (c.values, m, ''.join(' (%s)' % v for v in values.values()))
        facts = ''.join(' ⊛ raw (fact 𝓤 (%s%s%s))' % (word, m, said)
                        for word in (['Said', 'Also'] if c.also else ['Said']))
        types = prod([self.content(a) if a.changes else 'Unit {0}' for a in c.args])
        w.line(w.pick('call', 'res', 'said', how='split') + w.pull('said')
               + 'use1 W (some (λ (z%s : %s). ‵ (lasts %s-f.ended %s %s z%s)%s)) (id⊢ 𝓤 _) $ pick ! (λ z%s.'
               % (m, types, c.C, kappas, passed, m, facts, m))
        text = w.pick('said', 'lasts', 'fact', how='split')
        if c.also:
            text += w.pick('fact', 'fact', 'junk-f%d' % c.m, how='split')
        w.line(text + w.pull('fact') + 'heard ! (Said%s%s) (λ e%s.' % (m, said, m))
        w.ctx.remove('fact')
        w.line((w.pull('res') + 'split ! $').rstrip())
        w.swap(['res'], ['toks', 'ores'])
        text = w.pull('lasts')
        for a in c.args:
            if a.how == 'mut':
                text += w.pick('lasts', 'fin' + a.x, 'lasts')
            elif a.changes:
                text += w.pick('lasts', 'last', 'lasts') + w.pick('last', 'fin' + a.x, 'len') + w.pull('len')
                w.line(text + 'feqL ! (λ l%s-%s.' % (m, a.x))
                w.ctx.remove('len')
                text = ''
            else:
                text += w.pick('lasts', '', 'lasts')
        if text:
            w.line(text.rstrip())
        w.ctx[w.ctx.index('lasts')] = 'junk-l%d' % c.m
        return values

    def landing(self, c):
        """How the local of a result gets it: it is room until then."""
        return 'init'

    def land(self, c):
        """The result is stored in its local."""
        w, m, k = self.w, c.sub, c.result
        if isinstance(k, Unit):
            w.line(w.pull('ores') + 'feqL ! (λ is%s.' % m)
            w.ctx.remove('ores')
            w.line('land ! (from ! (stop !)) (%s ! «_%d» refl (subst (λ (y : Val). T (hasTy tyUnit y) × WT y) (sym (ap'
                   ' only is%s)) (tt, tt))) $'
                   % ('init' if c.first else 'store', self.unit, m))
            return
        i = self.local[c.to].i if c.to else 0
        if isinstance(k, Array):
            self.land_array(c, i)
            return
        typed, equation = k.lands('r' + m, 'is' + m)
        w.line(w.pull('ores') + 'peeks ! %s (Is %s) (shows 𝓤 H A %s) r%s (v%s ∷ []) (λ is%s.' % (k.row, k.row, k.row, m,
            m, m))
        w.line('land ! (from ! (stop !)) (%s ! «_%d» refl (%s)) $ rewrite ! «_%d» (λ (u : Val). ‵ (fat fullShare %s'
               ' l%s 0 u)) (ap only %s) refl $ drop ! $'
               % (self.landing(c), i, typed, i, k.mir, sub(i), equation))
        w.ctx.remove('ores')

    def land_array(self, c, i):
        """An array that a call returns is stored by way of a temporary, and lies in memory then."""
        w, m, k, l = self.w, c.sub, c.result, 'l' + sub(i)
        w.line(w.pull('ores') + 'peeks ! %s (Is %s) (shows 𝓤 H A %s) r%s (v%s ∷ []) (λ is%s.' % (k.row, k.row, k.row, m,
            m, m))
        typed = k.typed('r' + m, 'is' + m)
        w.line('land ! (from ! (stop !)) (init ! «_%d» refl %s) $' % (c.made, typed))
        self.assign(load(c.made), i, typed)
        w.line(w.pull('_%d' % i, 'ores') + 'use2 W (‵ (mem %s .lies r%s %s 0)) (part-in-at 𝓤 H A W %s refl fullShare r%s'
               ' %s 0 %s refl v%s) $' % (k.row, m, l, k.row, m, l, k.mir, m))
        w.swap(['_%d' % i, 'ores'], ['lies' + c.to])

    def take_back(self, c, a, values):
        """What was lent is back: a lifetime ends."""
        w, x, j = self.w, a.x, self.life[a.x]
        now, mut = '(%s)' % self.now[x], a.how == 'lend'
        w.line(w.pull('n' + x) + 'lft-end ! tt $')
        w.swap(['n' + x], ['dead'])
        taken = ['dead', 'lent' + x] + (['fin' + x] if mut else [])
        own = self.own(x, now='(%s)' % values[x] if mut else now)
        law = '%s %s 𝓤 H A W (named %d) (named 0) %s (length %s) (%s)' % ('back-mut' if mut else 'back-shr',
            self.terms(c, x), j, now, x, self.length[x])
        if mut:
            law += ' δ%s-%s (%s)' % (c.sub, x, values[x])
        w.line(w.pull(*taken) + 'use%d W (later (%s ⊛ %s)) (%s) $ await ! tt $ split ! $'
               % (len(taken), own, self.token(x), law))
        w.swap(taken, ['o' + x, 'k' + x])
        if mut:
            self.ended(c, x, values)

    def ended(self, c, x, values):
        """What a slice is after the call, and that it kept its length."""
        kept = 'l%s-%s' % (c.sub, x)
        self.length[x] = kept if self.length[x] == 'refl' else '%s ∙ %s' % (kept, self.length[x])
        self.now[x] = values[x]

    # ---- around the walk
    def symbol(self, path):
        """A function's symbol."""
        return '#' + '·'.join(path[:-1] + [path[-1].replace('_', '-')])

    def framed(self, walk):
        """The walk with its statement."""
        known = ''.join(' (known-%s : Triple 𝓤 (C %s) (%s 𝓤 H A at-mem run))' % (c.C, self.symbol(c.path), c.C)
                        for c in self.cited())
        inputs = cons([self.machine(p) for p in self.P])
        tokens = ' ⊛ '.join([self.token(p) for p in self.refs] + ['‵ ftrue'])
        return '''  module _ (C : Calls 𝓤 H) (Λ : Loops 𝓤 H) (fm : FmC 𝓤 H (W .laws) C)%s where
    walk : ent 𝓤 (onEntry 𝓤 H A f.signature %s %s a vals) (WpFn 𝓤 H C Λ code.function (%s) Post)
    walk =
        qed W ((%s) ∷ ‵ (owns (%s) a vals) ∷ []) ∵ enter ! C Λ code.function (%s) _ $
%s
''' % (known, self.lifetimes(), self.shares(), inputs, tokens, cons([self.row(p) for p in self.P]), inputs, walk)

    def entry(self):
        """The parameters of the walk, from what the function's triple binds."""
        n = len(self.refs)
        terms = ['(κs %s)' % dots(j) for j in range(n)] + ['(qs %s)' % dots(j) for j in range(n)]
        facts = []
        for i, p in enumerate(self.P):
            z = 'a ' + dots(i)
            if p in self.refs:
                terms += ['(%s .ptr .0)' % z, '(%s .ptr .1)' % z, '(%s .name)' % z, '(%s .now)' % z]
            else:
                terms.append('(%s)' % z)
            if p in self.refs and p not in self.mrefs:
                facts.append('(are %s .0 .1)' % dots(i))
            elif isinstance(self.kind[p], Uint):
                facts.append('(are %s .1)' % dots(i))
            elif p not in self.refs and not isinstance(self.kind[p], Bool):
                facts.append('(are %s)' % dots(i))
        return ' '.join(terms + facts + (['fit'] if self.fit else []))

    def closing(self):
        """From the walk to the theorem that the function meets its contract."""
        n, cited = self.name.replace('_', '-'), self.cited()
        known = ''.join(' known-' + c.C for c in cited)

        t = self.TABLES

        def triples(C):
            return ''.join('Triple 𝓤 (%s %s) (%s 𝓤 H A mem run) → ' % (C, self.symbol(c.path), c.C) for c in cited)
        walk = '(walk 𝓤 H A W mem run %s %s%s)' % (self.entry(), t['names'], known)
        via = ('needs 𝓤 _ _ (λ fit.', walk + '))') if self.fit else ('via 𝓤 _ (fst∗ 𝓤 _ (emp 𝓤))', walk + ')')
        uses = ''.join('\n    (cited 𝓤 H (%s 𝓤 H (𝓖 .A) (𝓜 .mem) (𝓡 .run)) 𝓜 𝓡 code.env %s %s-def.routine code.calls-%s'
                         ' (%s-thm.met 𝓤 H 𝓜 𝓖 𝓡))'
                         % (c.C, self.symbol(c.path), c.C, self.symbol(c.path)[1:].replace('_', '-'), c.C)
                         for c in cited)
        return '''module _ {ghost} (W : Given 𝓤 H A) {run} where
  {n}-walks : {bind} → {here}Walks 𝓤 H A f.ended stayed (WpFn 𝓤 H {both} code.function) (f.clauses 𝓤 H A mem run)
  {n}-walks {names}{known} = walked 𝓤 H A f.ended stayed (f.clauses 𝓤 H A mem run) (WpFn 𝓤 H {both} code.function)
      (λ κs. {vals}) (λ κs. {tells})
      (λ κs qs bounds a g are. {via}
      {walk}

{n}-meets : {ghost} → Given 𝓤 H A → {run} (𝓣 : Tables 𝓤 H) → {there}Meets 𝓤 H A f.signature (WpFn 𝓤 H (𝓣 .C) (𝓣 .Λ) code.function) (f.spec 𝓤 H A mem run)
{n}-meets 𝓤 H A W mem run 𝓣{known} =
    walk-meets 𝓤 H A f.ended stayed W {goes} (f.clauses 𝓤 H A mem run)
    (WpFn 𝓤 H (𝓣 .C) (𝓣 .Λ) code.function) (WpFn-mono 𝓤 H (W .laws) 𝓣 code.function) ({n}-walks 𝓤 H A W mem run {at}{known})

pub {n}-spec : {{M : Type 1}} → stated.statement M
unfolding code.routine tablesOf
{n}-spec 𝓤 H 𝓜 𝓖 𝓡 =
    entered 𝓤 H (tripleOf 𝓤 H (𝓖 .A) f.signature (f.spec 𝓤 H (𝓖 .A) (𝓜 .mem) (𝓡 .run)))
    (tables 𝓤 H 𝓜 𝓡 code.env .C) (tables 𝓤 H 𝓜 𝓡 code.env .Λ) {key} code.function (code.unfolded 𝓤 H 𝓜 𝓡)
    ({n}-meets 𝓤 H (𝓖 .A) (given-of 𝓤 H 𝓜 𝓖) (𝓜 .mem) (𝓡 .run) (tablesOf 𝓤 H 𝓜 (tables 𝓤 H 𝓜 𝓡 code.env)){uses})
'''.format(ghost=GHOST, run=RUN, n=n, known=known, here=triples(t['C']), there=triples('𝓣 .C'), via=via[0], walk=via[1],
           uses=uses,
           vals=tup([self.spelt(p)[0] for p in self.P]), tells=tup([self.spelt(p)[1] for p in self.P]),
           goes=tup([self.goes(p) for p in self.P]), key=self.symbol(self.path), bind=t['bind'], both=t['both'],
           names=t['names'], at=t['at'])
