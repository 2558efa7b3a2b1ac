"""Writes the proof of a function that goes through a slice in one loop: a walk of its MIR in the program logic, as
chains.py does for a chain of calls, of which it takes the words. Such a function has one of the forms

    let mut ACC = START;                        let mut INDEX: usize = 0;
    let mut INDEX: usize = 0;                   while INDEX < COUNT {
    while (ACC == 0) & (INDEX < COUNT) {            OUT[INDEX] = f(LIST[INDEX]);        or  OUT[INDEX] = LIST[INDEX];
        ACC = f(.., LIST[INDEX]);                   INDEX += 1;
        INDEX += 1;                             }
    }
    ACC

where f also takes parameters, INDEX and ACC, and slices: a `&[T]` as it is, a `&mut [T]` lent to it again. Without ACC
the test is INDEX < COUNT alone, and a call may be there for what it leaves in a lent slice. LIST is a `&[T]`, opened
once, before the loop; so is OUT, a `&mut [T]`.

What ACC, OUT or a lent slice is after i turns is a definition by recursion on i, so that a turn ends where the next one
begins. In the texts of a description, beside those of chains.py,
  each      the element LIST[INDEX], in what the call says and asks
  x-at i    what ACC, OUT or the lent slice x is after i turns
and in the proofs (`why` of the call, `step`, `also`, `end`)
  below     i < COUNT
  zero      x-at i ≡ 0, where the loop goes on as long as ACC is 0
  x-kept    x-at i has the length of x; x-fits: it fits its type
  e         what the call ensured
  done      the test failed at i: i ≡ COUNT or, where the loop goes on as long as ACC is 0, the test's negation
"""
import re

from chains import Arg, Fn, Local, cons, prod, tup
from kinds import Bool, ELEMENT, Sint, Struct, Uint, Unit, dots
from walk import Walk, load, part, sub

SIZE = {'u8': 1, 'i16': 2, 'u64': 8, 'Change': 8}


def element(k):
    """The kind of an element of a slice."""
    if k.element not in ELEMENT or k.element == 'Change':
        return Struct(k.element)
    return (Sint if k.element[0] == 'i' else Uint)(k.element)


def past(k):
    """What stands for an element past the end."""
    return {Uint: '0', Sint: '(pos 0)'}.get(type(element(k)), 'none')


def pointee(k):
    """The machine type of an element, behind a reference."""
    e = element(k)
    return '(pointee (%s .written))' % e.row if isinstance(e, Struct) else e.mir


def copies(e):
    """That a type is Copy."""
    if isinstance(e, Struct):
        return 'LL.copy %s-T.the-type %s-T′.the-copy 𝓤 H A W' % (e.name, e.name)
    return 'uint-copy 𝓤 H A W ' + e.w


class Acc:
    """A local that each turn sets: `while_zero` where the loop goes on only as long as it is 0."""

    def __init__(self, name, kind, start, while_zero=False):
        self.name, self.kind, self.start, self.while_zero = name, kind, start, while_zero


class Loop(Fn):
    """A function with a loop: `list` is gone through up to `count` by `index`; a turn is a call, whose result goes to
    the Acc or into `out`, or copies an element into `out`. `after` says what each name is after i turns; `step` proves
    that what the call leaves is that after i + 1 turns, one proof a name, in the order of `after`; `also` is a further
    fact about i, at first and for the next i; `within` and `room` prove count ≤ length list and ≤ length out."""
    TABLES = {'bind': '(𝓣 : Tables 𝓤 H)', 'names': '𝓣', 'C': '𝓣 .C', 'both': '(𝓣 .C) (𝓣 .Λ)', 'at': '𝓣'}
    loops = True

    def __init__(self, path, params, result, said, list, count, index, after, end, turn=None, out=None, acc=None,
                 step=None, also=None, within='fit .0', room='fit .1', **more):
        self.list, self.count, self.index, self.after, self.turn, self.out, self.acc = (
            list, count, index, after, turn, out, acc)
        self.step, self.also, self.within, self.room = step, also, within, room
        super().__init__(path, params, result, said, [turn] if turn else [], end, **more)

    # ---- locals of the MIR
    def number_locals(self):
        """The result, the parameters, the Acc, the index, and the temporaries of the test and of the turn."""
        self.types = [self.result.mir] + [self.param_type(p) for p in self.P]
        self.local, self.unit = {}, None
        if self.acc:
            a = self.acc
            self.local[a.name] = Local(self.new(a.kind.mir), a.kind, '%s-at (turn .0)' % a.name,
                                       'refl' if isinstance(a.kind, Bool) else '%s-fits turn' % a.name)
        self.local[self.index] = Local(self.new('(tyInt w64)'), Uint('usize'), 'turn .0', 'fits turn')
        self.tests = [self.new('tyBool') for _ in range(3 if self.while_zero() else 1)]
        self.full = set(range(1, len(self.types))) - set(self.tests)
        kind = element(self.kind[self.list])
        c = self.turn
        if c:
            c.args = [self.arg(t.strip()) for t in c.text.split(',')]
            c.tmp, c.fresh, c.first, c.made = {}, set(), True, None
            if isinstance(c.result, Unit):
                self.unit = self.new('tyUnit')
            elif self.out:
                c.to = 'made'
                known = c.result.known('r₁', 'is₁')
                self.local['made'] = Local(self.new(c.result.mir), c.result, 'r₁', known)
            for i, a in enumerate(c.args):
                if a.x == 'each':
                    self.number_read(kind)
                elif a.how == 'lend':
                    to = '(tyRef erased mut %s)' % pointee(self.kind[a.x])
                    c.tmp[i] = (self.new(to), self.new('(sliceTy %s)' % to))
        else:
            self.number_read(kind)
        if self.out:
            self.place = (self.new('(tyInt w64)'), self.new('tyPtr'))
        self.N, self.lets = len(self.types), dict(self.local)

    def number_read(self, kind):
        self.read_by = (self.new('(tyInt w64)'), self.new('tyPtr'))
        proof = 'each-is .1' if isinstance(kind, Uint) else 'each-is'
        self.local['each'] = Local(self.new(kind.mir), kind, 'each', proof)

    def new(self, type):
        """A further local."""
        self.types.append(type)
        return len(self.types) - 1

    def param_type(self, p):
        k = self.kind[p]
        if p not in self.refs:
            return k.mir
        return '(sliceTy (tyRef (named %d) %s %s))' % (self.life[p], 'mut' if p in self.muts else 'imm', pointee(k))

    def arg(self, text):
        if text == '%s[%s]' % (self.list, self.index):
            return Arg('local', 'each', element(self.kind[self.list]))
        return super().arg(text)

    def while_zero(self):
        return self.acc is not None and self.acc.while_zero

    # ---- what the loop is about
    def state(self, x):
        """The type of what x is after i turns."""
        return self.acc.kind.denot if self.acc and x == self.acc.name else self.kind[x].list

    def lent(self):
        """The slices that are lent to the call."""
        return [a.x for a in self.turn.args if a.how == 'lend'] if self.turn else []

    def shared(self):
        """The slices that are passed to it as they are."""
        return [a.x for a in self.turn.args if a.how == 'copy'] if self.turn else []

    def invariants(self):
        """What is known after i turns: name, type, at first."""
        out = [(x + '-kept', 'length (%s-at i) ≡ length %s' % (x, x), 'refl') for x in self.after if x in self.muts]
        if self.acc and not isinstance(self.acc.kind, Bool):
            a = self.acc
            out.append((a.name + '-fits', a.kind.fact('%s-at i' % a.name), self.proof(a.start)))
        if self.also:
            out.append(('also', self.also[0], self.also[1]))
        return out

    def test(self, i):
        """The test, at i."""
        less = 'ltb %s %s' % (i, self.count)
        return 'eqb (%s-at %s) 0 && %s' % (self.acc.name, i, less) if self.while_zero() else less

    def text(self):
        """The whole proof, from `abbrev stayed`."""
        def own(text):
            return [text.strip('\n') + '\n'] if text else []
        parts = [self.opening(), self.scaled(), self.module(), self.states()] + own(self.before)
        parts += [self.callee(c) for c in self.calls] + [self.exits()] + own(self.laws) + [self.counted_on()]
        return '\n'.join(parts + [self.walk(), self.closing()])

    def scaled(self):
        """That the place of an element, in bytes, fits a word."""
        law = ('-- the place of an element, in bytes, fits a word\nscaled{0} : (i n : ℕ) → i < n → n * {0} < 2 ^ 63 → i *'
               ' {0} < 2 ^ 64\nscaled{0} i n l g = omega (arith, l, g)\n')
        slices = [self.list] + ([self.out] if self.out else [])
        return '\n'.join(law.format(size) for size in sorted({SIZE[self.kind[x].element] for x in slices}))

    def states(self):
        """x-at."""
        said = '  abbrev %s-at : ℕ → %s\n  %s-at i = %s\n'
        return '  -- after i turns\n' + '\n'.join(said % (x, self.state(x), x, text) for x, text in self.after.items())

    def counted_on(self):
        """The loop's variant and invariant; what the call asks; that a turn ends where the next begins; the end."""
        inv, n = self.invariants(), self.count
        known, names = ''.join(' → ' + t for _, t, _ in inv), ''.join(' ' + x for x, _, _ in inv)
        zero = ' → %s-at i ≡ 0' % self.acc.name if self.while_zero() else ''
        at, below = 'i < %s%s%s' % (n, zero, known), (' below zero' if zero else ' below') + names
        binds = ''.join('(%s-ν : ℕ) (%s-δ : GName) ' % (x, x) for x in self.lent())
        bound = ''.join(' %s-ν %s-δ' % (x, x) for x in self.lent())
        out = ['  -- ---- the loop\n  abbrev Upto : Type 0\n  Upto = (i : ℕ) × ((i ≤ %s) × (%s))\n'
               % (n, prod([t for _, t, _ in inv]) if inv else 'Unit {0}'),
               '  abbrev Nearer : Upto → Upto → Type 0\n  Nearer j i = %s - j .0 < %s - i .0\n' % (n, n),
               '  Nearer-wf : WellFounded Nearer\n  Nearer-wf = InvImage·wf (λ (i : Upto). %s - i .0) (Nat·lt-wfRel'
               ' .wf)\n' % n,
               '  abbrev start : Upto\n  start = (0, (zero-le, %s))\n' % tup([z for _, _, z in inv])]
        if self.turn and self.turn.asked:
            out.append('  asks : %s(i : ℕ) → %s → %s\n  asks%s i%s = %s\n'
                       % (binds, at, self.at_turn('Asked₁'), bound, below, self.turn.why))
        if self.turn and self.step:
            lasts = ''.join(' (%s′ : %s)' % (x, self.kind[x].list) for x in self.lent())
            ends = ''.join(' %s′' % x for x in self.lent())
            goals = ' × '.join('(%s)' % self.goal(x, 'suc i') for x in self.after)
            out.append('  steps : %s(i : ℕ) (r : %s)%s → %s → %s r%s → %s\n  steps%s i r%s%s e = %s\n' % (
                binds, self.turn.result.denot, lasts, at, self.at_turn('Said₁'), ends, goals, bound, ends, below,
                self.step))
        done = 'T (not (%s))' % self.test('i') if zero else 'i ≡ %s' % n
        out.append('  ends : (i : ℕ) → i ≤ %s%s → %s → %s\n  ends i upto%s done = %s\n'
                   % (n, known, done, self.said_at(), names, self.end))
        return '\n'.join(out)

    def said_at(self):
        """What the function ensures, of what stands after i turns."""
        said = self.said
        for x in self.after:
            said = re.sub(r'(?<![\w-])%s′' % re.escape(x), '(%s-at i)' % x, said)
        return re.sub(r'(?<![\w-])r(?![\w-])', '(%s-at i)' % self.acc.name, said) if self.acc else said

    def goal(self, x, i):
        """What a turn leaves of x is what the next begins with."""
        return '%s ≡ %s-at (%s)' % ('r' if self.acc and x == self.acc.name else x + '′', x, i)

    def at_turn(self, word):
        """Asked₁ or Said₁ at turn i."""
        each = '(getD %s i %s)' % (self.list, past(self.kind[self.list]))
        values = []
        for a in self.turn.args:
            if a.how == 'lend':
                values += [a.x + '-ν', a.x + '-δ', '(%s-at i)' % a.x]
            elif a.how == 'local':
                values.append({'each': each, self.index: 'i'}.get(a.x, '(%s-at i)' % a.x))
        return ' '.join([word] + values)

    # ---- the context of the loop, by name: what it is, at i
    def context(self):
        p, k = self.list, self.kind[self.list]
        out = [('row' + p, '‵ (row %s p %s %s-b %s-o)' % (k.row, p, p, p)),
               ('obor' + p, '‵ (fobor %s %s (arr-parts (shares %s) (length %s) .part p %s %s-b %s-o))'
                % (self.kappa(p), self.share(p), k.row, p, p, p, p)),
               ('o' + p, self.own(p))]
        if self.out:
            x = self.out
            k = self.kind[x]
            code = '%s-γ (codedHoleys %s .code (heres %s %s))' % (x, k.row, k.row, x)
            out += [('row' + x, '‵ (row %s fullShare (%s-at (turn .0)) %s-b %s-o)' % (k.row, x, x, x)),
                    ('obor' + x, '‵ (fobor %s %s (Held %s (length %s) %s-b %s-o %s-γ))'
                     % (self.kappa(x), self.share(x), k.row, x, x, x, x)),
                    ('obs' + x, '‵ (fobs %s)' % code), ('auth' + x, '‵ (fauth %s)' % code)]
        for x in self.lent():
            out += [('o' + x, self.own(x, now='(%s-at (turn .0))' % x)), ('k' + x, self.token(x))]
        for x in self.shared():
            out += [('o' + x, self.own(x)), ('k' + x, self.token(x))]
        for i in reversed(range(self.N)):
            cell = '‵ (froom %s l%s 0)' % (self.types[i], sub(i))
            if i in self.full:
                cell = '‵ (fat fullShare %s l%s 0 (%s))' % (self.types[i], sub(i), self.held_by(i))
            out += [('_%d' % i, cell), ('†%d' % i, '‵ (fdies %s l%s)' % (self.types[i], sub(i)))]
        return out

    def held_by(self, i):
        """What local i holds at the head of a turn."""
        if i <= len(self.P):
            return self.machine(self.P[i - 1])
        local = next(v for v in self.lets.values() if v.i == i)
        return local.kind.val('(%s)' % local.value)

    def walk(self):
        """The loop's turns, and the walk up to the loop."""
        self.locals = ' '.join('l' + sub(i) for i in range(self.N))
        known = ''.join(' (known-%s : Triple 𝓤 (𝓣 .C %s) (%s 𝓤 H A at-mem run))' % (c.C, self.symbol(c.path), c.C)
                        for c in self.cited())
        names = ''.join(' known-' + c.C for c in self.cited())
        end = 'text.t-%d' % (4 if self.acc else 3)
        rest = 'text.t-%d' % (3 if self.acc else 2)
        turns = self.turns(end)
        inputs = cons([self.machine(p) for p in self.P])
        tokens = ' ⊛ '.join([self.token(p) for p in self.refs] + ['‵ ftrue'])
        return '''  module _ (𝓣 : Tables 𝓤 H) (fm : FmC 𝓤 H (W .laws) (𝓣 .C)){known} (p : Share) ({locals} : ℕ) where
    abbrev C : Calls 𝓤 H
    C = 𝓣 .C

    abbrev Λ : Loops 𝓤 H
    Λ = 𝓣 .Λ

    abbrev En : Env 𝓤 H
    En = {env}

    -- the whole context at the head of a turn
    abbrev At : Upto → List (Item 𝓤)
    At turn = {at}

    -- a turn ends nearer to the end, or the loop is left and the rest of the body runs
    abbrev Turned : Upto → Out → SProp 𝓤
    Turned turn = afterTurn 𝓤 H (Below 𝓤 H A Nearer At turn) (afterBlock 𝓤 H (afterSeq 𝓤 H (Wp 𝓤 H C Λ En {end} (atReturn 𝓤 H En Post)) (atReturn 𝓤 H En Post)))

    turns : (turn : Upto) → Sq W (At turn) (runs C Λ En text.turn-1 (anyQ (Turned turn)))
    unfolding afterTurn
    turns turn =
{turns}
      where
{where}

    begins : Sq W (At start) (runs C Λ En {rest} (atRet En Post))
    begins = first ! $ blocks ! $ loops ! 𝓣 Nearer Nearer-wf At turns start

  walk : (𝓣 : Tables 𝓤 H) → {triples}ent 𝓤 (onEntry 𝓤 H A f.signature {lifetimes} {shares} a vals) (WpFn 𝓤 H (𝓣 .C) (𝓣 .Λ) code.function ({inputs}) Post)
  walk 𝓣{names} =
      qed W (({tokens}) ∷ ‵ (owns ({rows}) a vals) ∷ []) ∵ enter ! (𝓣 .C) (𝓣 .Λ) code.function ({inputs}) _ $
{entry}
'''.format(known=known, locals=self.locals, env=cons('(%s, l%s)' % (t, sub(i)) for i, t in enumerate(self.types)),
           at=cons(t for _, t in self.context()), end=end, rest=rest, turns=turns, where=self.lemmas(), names=names,
           triples=''.join('Triple 𝓤 (𝓣 .C %s) (%s 𝓤 H A at-mem run) → ' % (self.symbol(c.path), c.C)
                           for c in self.cited()),
           lifetimes=self.lifetimes(), shares=self.shares(), inputs=inputs, tokens=tokens,
           rows=cons([self.row(p) for p in self.P]), entry=self.entered(names))

    def lemmas(self):
        """What a turn cites: about its index, the element, and the next turn."""
        T, n, k = 'T (%s)' % self.test('(turn .0)'), self.count, self.kind[self.list]
        less, size, zero = 'less', SIZE[k.element], []
        if self.while_zero():
            code = '%s-at (turn .0)' % self.acc.name
            both = 'and-yes (eqb (%s) 0) (ltb (turn .0) %s) less' % (code, n)
            less = '(%s .1)' % both
            zero = [('zero', '%s → %s ≡ 0' % (T, code), 'less', 'eqb→eq (%s) 0 (%s .0)' % (code, both))]
        out = [('fits', '(at : Upto) → at .0 < 2 ^ 64', 'at', 'lt-of-le-of-lt (at .1 .0) %s-fits' % n),
               ('below', '%s → turn .0 < %s' % (T, n), 'less', 'ltb→lt (turn .0) %s %s' % (n, less)),
               ('within', '%s → turn .0 < length %s' % (T, self.list), 'less',
                'lt-of-lt-of-le (below less) (%s)' % self.within),
               ('wide', '%s → turn .0 * %d < 2 ^ 64' % (T, size), 'less',
                'scaled%d (turn .0) (length %s) (within less) (%s-room .1)' % (size, self.list, self.list)),
               ('each', element(k).denot, '', 'getD %s (turn .0) %s' % (self.list, past(k)))] + zero
        for i, (name, type, _) in enumerate(self.invariants()):
            here = re.sub(r'(?<![\w-])i(?![\w-])', '(at .0)', type)
            out.append((name, '(at : Upto) → ' + here, 'at', 'at .1 .1 ' + dots(i)))
        if self.out:
            x, inside = self.out, 'lt-of-lt-of-le (below less) (%s)' % self.room
            size = SIZE[self.kind[x].element]
            out += [('inside', '%s → turn .0 < length (%s-at (turn .0))' % (T, x), 'less',
                     'subst (λ (m : ℕ). turn .0 < m) (sym (%s-kept turn)) (%s)' % (x, inside)),
                    ('wide-out', '%s → turn .0 * %d < 2 ^ 64' % (T, size), 'less',
                     'scaled%d (turn .0) (length %s) (%s) (%s-room .1)' % (size, x, inside, x))]
        out.append(self.next_turn(T))
        return '\n\n'.join('        %s : %s\n        %s%s = %s' % (name, type, name, ' ' + args if args else '', body)
                           for name, type, args, body in out)

    def next_turn(self, T):
        """The next turn: its index, and what is known there."""
        types, args, parts, add = '', 'less', [], 'add-one (turn .0)'
        for x in self.after:
            if x in self.lent():
                types += '{%s′ : %s} → %s → length %s′ ≡ length %s → ' % (
                    x, self.kind[x].list, self.goal(x, 'suc (turn .0)'), x, x)
                args += ' %s-e %s-l' % (x, x)
                parts.append('rw (%s, ← %s-e) %s-l' % (add, x, x))
            elif x == self.out:
                parts.append('subst (λ (m : ℕ). length (%s-at m) ≡ length %s) (sym (%s)) (length-set (%s-at (turn .0))'
                             ' (turn .0) _ ∙ %s-kept turn)' % (x, x, add, x, x))
        if self.acc and not isinstance(self.acc.kind, Bool):
            x, k = self.acc.name, self.acc.kind
            types += '{r : %s} → %s → %s → ' % (k.denot, self.goal(x, 'suc (turn .0)'), k.fact('r'))
            args += ' %s-e %s-f' % (x, x)
            parts.append('rw (%s, ← %s-e) %s-f' % (add, x, x))
        if self.also:
            types += '%s → ' % element(self.kind[self.list]).fact('each')
            args += ' each-fits'
            holds = re.sub(r'(?<![\w-])i(?![\w-])', 'm', self.also[0])
            parts.append('subst (λ (m : ℕ). %s) (sym (%s)) (%s)' % (holds, add, self.also[2]))
        next = '(turn .0 + 1, (add-one-le (below less), %s))' % tup(parts)
        return 'next', '%s → %sUpto' % (T, types), args, next

    # ---- the turn
    def turns(self, end):
        """A turn: the test, and what is done where it holds and where it fails."""
        w = self.w = Walk()
        self.loop = [name for name, _ in self.context()]
        w.ctx = list(self.loop)
        self.local = dict(self.lets)
        self.now = {x: '%s-at (turn .0)' % x for x in self.muts}
        self.length = {x: '%s-kept turn' % x for x in self.muts}
        self.final, self.filled = {}, set(self.full) | set(self.tests)
        index, count = load(self.local[self.index].i), load(self.idx[self.count])
        first = 'assigns ! (bin ! (%s) (%s) tt) (from ! (stop !)) (init ! «_%d» refl (tt, tt)) $'
        if self.while_zero():
            w.line(first % (load(self.local[self.acc.name].i), 'lit ! tt', self.tests[0]))
            w.line(first % (index, count, self.tests[1]))
            w.line(first % (load(self.tests[0]), load(self.tests[1]), self.tests[2]))
        else:
            w.line(first % (index, count, self.tests[0]))
        w.line('tests ! (%s)' % load(self.tests[-1]))
        tested, opened = list(w.ctx), w.open
        w.line('(λ less.')
        self.body()
        w.out[-1] += ')' * (w.open - opened)
        w.open, w.ctx = opened, tested
        w.line('(λ over. exec ! C Λ En %s (atRet En Post) $' % end)
        self.leaves()
        return w.close()

    def body(self):
        """What is done with an element."""
        w, c = self.w, self.turn
        if c:
            self.do_call(c)
        else:
            self.read()
        if self.out:
            self.put()
        self.settled()
        w.line('keep ! (%s ∷ []) $' % ' ∷ '.join(str(w.at(x)) for x in self.loop))
        fits = 'record { fits = fits (%s) }' % self.following()
        i = self.local[self.index].i
        w.ctx = list(self.loop)
        w.line('assigns-last ! (bin ! (%s) (lit ! tt) (%s)) (from ! (stop !)) (store ! «_%d» refl (tt, %s)) $'
               % (load(i), fits, i, fits))
        used = [j for j in reversed(range(self.N)) if j and j not in self.full]
        w.line(' $ '.join('forget ! «_%d» refl' % j for j in used) + ' $')
        w.line('again ! Nearer At turn (%s) (add-one-dec %s (turn .0) (below less))' % (self.following(), self.count))

    def at_this(self):
        """What is known at this turn, as arguments."""
        zero = ' (zero less)' if self.while_zero() else ''
        return ' (below less)' + zero + ''.join(' (%s turn)' % name for name, _, _ in self.invariants())

    def stepped(self, x):
        """The proof that x is what the next turn begins with."""
        if not self.step:
            return 'e₁'
        pairs = ''.join(' ν₁-%s δ₁-%s' % (y, y) for y in self.lent())
        lasts = ''.join(' (%s)' % self.ends_at[y] for y in self.lent())
        names = list(self.after)
        at, one = names.index(x), len(names) == 1
        which = '' if one else ' ' + (dots(at) if x != names[-1] else ' '.join(['.1'] * at))
        return 'steps%s (turn .0) r₁%s%s e₁%s' % (pairs, lasts, self.at_this(), which)

    def why(self, c):
        """The proof of what the call asks, at this turn."""
        return 'asks%s (turn .0)%s' % (''.join(' ν₁-%s δ₁-%s' % (x, x) for x in self.lent()), self.at_this())

    def following(self):
        """The next turn, from what the call left."""
        text = 'next less'
        for x in self.after:
            if x in self.lent():
                text += ' (%s) (l₁-%s ∙ %s-kept turn)' % (self.stepped(x), x, x)
        if self.acc and not isinstance(self.acc.kind, Bool):
            text += ' (%s) (%s)' % (self.stepped(self.acc.name), self.turn.result.known('r₁', 'is₁'))
        if self.also:
            text += ' (%s)' % self.local['each'].proof
        return text

    def settled(self):
        """What the call left is what the next turn begins with."""
        def rewrite(entry, type, form, x):
            self.w.line('rewrite ! «%s» (λ (y : %s). %s) (%s) refl $' % (entry, type, form('y'), self.stepped(x)))
            self.w.line('rewrite ! «%s» (λ (m : ℕ). %s) (sym (add-one (turn .0))) refl $'
                        % (entry, form('(%s-at m)' % x)))
        for x in self.lent():
            rewrite('o' + x, self.kind[x].list, lambda y: self.own(x, now=y), x)
        if self.acc:
            k, i = self.acc.kind, self.local[self.acc.name].i
            rewrite('_%d' % i, k.denot, lambda y: '‵ (fat fullShare %s l%s 0 (%s))' % (k.mir, sub(i), k.val(y)),
                    self.acc.name)

    def landing(self, c):
        """The Acc holds a number already."""
        return 'store' if self.acc and c.to == self.acc.name else 'init'

    def temporary(self, c, i, a):
        if a.x == 'each':
            self.read()
        else:
            super().temporary(c, i, a)

    def take_back(self, c, a, values):
        self.ends_at = values
        super().take_back(c, a, values)

    def address(self, x, by, wide):
        """A pointer to element INDEX of slice x."""
        w, (word, pointer) = self.w, by
        fits = 'record { fits = %s less }' % wide
        w.line('assigns ! (bin ! (%s) (lit ! tt) (%s)) (from ! (stop !)) (init ! «_%d» refl (tt, %s)) $'
               % (load(self.local[self.index].i), fits, word, fits))
        w.line('assigns ! (bin ! (%s) (%s) tt) (from ! (stop !)) (init ! «_%d» refl (tt, tt)) $'
               % (part(self.idx[x], 0), load(word), pointer))
        w.line('rewrite ! «_%d» (λ (m : ℕ). ‵ (fat fullShare tyPtr l%s 0 (vptr %s-b m))) (sym (place-is %d %s-o (turn'
               ' .0))) refl $' % (pointer, sub(pointer), x, SIZE[self.kind[x].element], x))

    def read(self):
        """The element is copied out of the list's row."""
        w, x, local = self.w, self.list, self.local['each']
        e, d = local.kind, past(self.kind[x])
        w.note('the element is copied out of the list')
        self.address(x, self.read_by, 'wide')
        w.line(w.pull('row' + x) + 'elem-out ! %s (Is %s) (shows 𝓤 H A %s) (%s) (%s) p %s (turn .0) %s %s-b %s-o'
               ' (within less) (λ each-is.' % (e.row, e.row, e.row, e.vals, e.tells, x, d, x, x))
        w.swap(['row' + x], ['cell', 'own', 'others'])
        look = 'look-raw' if isinstance(e, Struct) else 'look'
        self.assign('load ! (from ! (hop ! (look ! «_%d» refl) (stop !))) (%s ! «cell» refl)' % (self.read_by[1], look),
                    local.i, e.typed('each', local.proof))
        w.line('elem-back ! %s p %s (turn .0) %s (%s each) %s-b %s-o (within less) $' % (e.row, x, d, e.vals, x, x))
        w.swap(['cell', 'own', 'others'], ['row' + x])

    def put(self):
        """The result, or the element, is stored in the other slice."""
        w, x = self.w, self.out
        local = self.local['made' if self.turn else 'each']
        e, value, at = local.kind, local.value, '%s-at (turn .0)' % x
        proof = local.proof if isinstance(e, Uint) else '(%s)' % local.proof
        w.note('it is stored in %s' % x)
        self.address(x, self.place, 'wide-out')
        w.line(e.owned(value, proof).rstrip())
        w.ctx.insert(0, 'new')
        w.line(w.pull('row' + x) + 'elem-out ! %s (Is %s) (shows 𝓤 H A %s) (%s) (%s) fullShare (%s) (turn .0) %s %s-b'
               ' %s-o (inside less) (λ old-is.' % (e.row, e.row, e.row, e.vals, e.tells, at, past(self.kind[x]), x, x))
        w.swap(['row' + x], ['cell', 'old', 'others'])
        w.line('assigns ! (of-opd ! (%s)) (from ! (hop ! (look ! «_%d» refl) (stop !))) (store-raw ! «cell» refl %s) $'
               % (load(local.i), self.place[1], e.typed(value, proof)))
        text = w.pull('old') + 'drop ! $ '
        w.ctx.remove('old')
        w.line(text + w.pull('cell', 'new', 'others') + 'elem-put ! %s fullShare (%s) (turn .0) %s (%s ∷ []) %s-b %s-o'
               ' (inside less) $' % (e.row, at, value, e.val(value), x, x))
        w.swap(['cell', 'new', 'others'], ['row' + x])
        if self.turn:
            w.line('rewrite ! «row%s» (λ (y : %s). ‵ (row %s fullShare (set (%s) (turn .0) y) %s-b %s-o)) e₁ refl $'
                   % (x, e.denot, e.row, at, x, x))
        w.line('rewrite ! «row%s» (λ (m : ℕ). ‵ (row %s fullShare (%s-at m) %s-b %s-o)) (sym (add-one (turn .0)))'
               ' refl $' % (x, e.row, x, x, x))

    def leaves(self):
        """The end: the slices are closed, the result returned, the locals freed."""
        w, x = self.w, self.list
        if self.acc:
            local = self.local[self.acc.name]
            value, proof = local.value, local.proof
            self.assign(load(local.i), 0, local.kind.typed('(%s)' % value, proof))
        else:
            value, proof = 'tt', 'tt'
            w.line('assigns ! (of-opd ! (unit-lit !)) (from ! (stop !)) (init ! «_0» refl (tt, tt)) $')
        w.line(w.pull('row' + x, 'obor' + x) + 'shuts-slice ! tt %s p %s %s-b %s-o $' % (self.kind[x].row, x, x, x))
        w.swap(['row' + x, 'obor' + x], ['k' + x])
        if self.out:
            self.close_out(self.out)
        w.line('returns ! (look ! «_0» refl) $ ' + ' $ '.join('forget ! «_%d» refl' % i for i in range(self.N)
                                                             if i == 0 or i in self.filled) + ' $')
        freed = []
        for i in range(self.N):
            freed.append(w.pull('_%d' % i, '†%d' % i) + 'free1 ! $')
            w.ctx = w.ctx[2:]
        w.line(' '.join(freed) + ' free0 ! $')
        keep = ['k' + n[1:] if n[0] == 't' else n for n, _ in self.held()]
        known = ''.join(' (%s turn)' % name for name, _, _ in self.invariants())
        done = 'over' if self.while_zero() else '(le-antisymm (turn .1 .0) (nltb→le (turn .0) %s over))' % self.count
        ends = '(ends (turn .0) (turn .1 .0)%s %s)' % (known, done)
        w.line('keep ! (%s ∷ []) $ by ! (exits (%s)%s %s%s %s)' % (
            ' ∷ '.join(str(w.at(n)) for n in keep), value, ''.join(' (%s-at (turn .0))' % p for p in self.changed),
            ends, ''.join(' (%s-kept turn)' % p for p in self.muts), proof if proof == 'refl' else '(%s)' % proof))

    def close_out(self, x):
        """The other slice is closed, and is a slice as at the entry."""
        w, k = self.w, self.kind[x]
        at, kept = '(%s-at (turn .0))' % x, '(%s-kept turn)' % x
        w.line(w.pull('row' + x, 'obor' + x, 'obs' + x, 'auth' + x) + 'closes-slice ! tt %s %s %s %s %s-b %s-o $'
               % (k.row, x, at, kept, x, x))
        w.swap(['row' + x, 'obor' + x, 'obs' + x, 'auth' + x], ['obs', 'bor', 'k' + x])
        w.line('fjoin ! $ pureI ! (at-slice %s (%s) (%s ∷ [])) (tt, (tt, tt)) (ap (λ (m : ℕ). sliceVal (%s-b, %s-o) m ∷'
               ' []) (sym %s), subst (Room %s) (sym %s) %s-room) $ fjoin ! $'
               % (k.row, self.rec(x, now=at), self.slice_val(x), x, x, kept, k.row, kept, x))
        w.swap(['obs', 'bor'], ['o' + x])

    # ---- the walk up to the loop
    def entered(self, names):
        """The locals, the index and the Acc at their start, and the slices opened."""
        w = self.w = Walk(6)
        self.local = dict(self.lets)
        w.alloc(self.N, ['tok', 'owns'], [self.typed(p) for p in self.P])
        if self.acc:
            a, i = self.acc, self.local[self.acc.name].i
            if isinstance(a.kind, Bool):
                w.line('assigns ! (of-opd ! (%s-lit !)) (from ! (stop !)) (init ! «_%d» refl (tt, tt)) $'
                       % (a.start, i))
            else:
                self.assign(load(self.idx[a.start]), i, a.kind.typed(a.start, self.proof(a.start)))
        w.line('assigns ! (of-opd ! (lit ! tt)) (from ! (stop !)) (init ! «_%d» refl (tt, record { fits = lit< tt })) $'
               % self.local[self.index].i)
        text, cur = '', 'owns'
        for p in self.P:
            text += w.pick(cur, 'o' + p if p in self.refs else '', 'junk-r')
            cur = 'junk-r'
        cur = 'tok'
        for p in self.refs:
            text += w.pick(cur, 'k' + p, 'junk-ts', how='split')
            cur = 'junk-ts'
        w.line(text.rstrip())
        x = self.list
        self.copy(x)
        e = element(self.kind[x])
        w.line(w.pick('copy' + x, '', 'shr') + w.pick('shr', '', 'shr') + w.pull('shr', 'k' + x)
               + 'looks-slice ! tt %s (Is %s) (shows 𝓤 H A %s) (%s) (%s) (%s) %s %s-b %s-o (λ p.'
               % (e.row, e.row, e.row, e.vals, e.tells, copies(e), x, x, x))
        w.swap(['shr', 'k' + x], ['row' + x, 'obor' + x, 'shr'])
        if self.out:
            x = self.out
            w.line(w.pick('o' + x, '', 'bor') + w.pick('bor', 'obs', 'bor') + w.pull('obs', 'bor', 'k' + x)
                   + 'opens-slice ! tt %s %s %s-b %s-o $' % (self.kind[x].row, x, x, x))
            w.swap(['obs', 'bor', 'k' + x], ['row' + x, 'obor' + x, 'obs' + x, 'auth' + x])
        w.line('keep ! (%s ∷ []) $' % ' ∷ '.join(str(w.at(n)) for n, _ in self.context()))
        w.line('begins 𝓣 (fmOf 𝓤 H (W .laws) 𝓣)%s p %s' % (names, self.locals))
        return w.close()
