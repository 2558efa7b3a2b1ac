"""An assembler for walks by hand. The context of a walk is a list, and each step of the logic names its entries by
position. Here they have names: «x» in a line is replaced by the position of x at that line, and the steps that change
the context say so. Nothing is checked here: the prover does that."""
import re


class Walk:
    def __init__(self, indent=8):
        self.ctx, self.out, self.open, self.pad = [], [], 0, ' ' * indent

    def at(self, name):
        """The position of an entry now."""
        return self.ctx.index(name)

    def line(self, text):
        """Writes a line. A bracket that the line leaves open is closed at the end of the walk."""
        text = re.sub('«([^»]+)»', lambda m: str(self.at(m.group(1))), text)
        self.open += text.count('(') - text.count(')')
        self.out.append(self.pad + text)

    def note(self, text=None):
        """Writes a comment: the text, or the names of the context."""
        names = '[' + '; '.join(n for n in self.ctx if not n.startswith('†')) + ']'
        self.out.append(self.pad + '-- ' + (text or names))

    def swap(self, take, give):
        """The first entries are `take`, in this order; `give` takes their place."""
        assert self.ctx[:len(take)] == list(take), (self.ctx[:len(take)], take)
        self.ctx = list(give) + self.ctx[len(take):]

    def pull(self, *names):
        """Puts these entries in front, in this order."""
        places = [self.at(n) for n in names]
        self.ctx = list(names) + [n for n in self.ctx if n not in names]
        if places == list(range(len(names))):
            return ''
        return 'move ! (%s ∷ []) $ ' % ' ∷ '.join(map(str, places))

    def pick(self, name, *parts, how='fsplit'):
        """Pulls an entry and splits it into parts; a part '' in front is dropped."""
        text = self.pull(name) + how + ' ! $ '
        self.swap([name], parts)
        while self.ctx[0] == '':
            text += 'drop ! $ '
            self.ctx = self.ctx[1:]
        return text

    def alloc(self, n, entries, typed):
        """Room for n locals, _0 to _(n-1), in front of the entries; the parameters are stored, `typed` proving each."""
        self.ctx = [x for i in reversed(range(n)) for x in ('_%d' % i, '†%d' % i)] + list(entries)
        self.line(' '.join('alloc1 ! (λ l%s.' % sub(i) for i in range(n)) + ' alloc0 ! $ params1 ! $ '
                  + ' $ '.join('pass1 ! (init ! %d refl %s)' % (self.at('_%d' % (k + 1)), t) for k,
                               t in enumerate(typed))
                  + ' $ pass0 ! $')

    def ret(self, n):
        """Returns what is in _0, forgets what the n locals hold, and frees them."""
        self.line('returns ! (look ! %d refl) $ ' % self.at('_0')
                  + ' $ '.join('forget ! %d refl' % self.at('_%d' % i) for i in range(n)) + ' $')
        freed = []
        for i in range(n):
            freed.append(self.pull('_%d' % i, '†%d' % i) + 'free1 ! $')
            self.ctx = self.ctx[2:]
        self.line(' '.join(freed) + ' free0 ! $')

    def close(self):
        """The whole walk, with the brackets closed that its lines left open."""
        self.out[-1] += ')' * self.open
        return '\n'.join(self.out)


def sub(i):
    """A number as a subscript."""
    return ''.join('₀₁₂₃₄₅₆₇₈₉'[int(c)] for c in str(i))


# ---- operands of the walk's statements
def load(i):
    """What local i holds."""
    return 'load ! (from ! (stop !)) (look ! «_%d» refl)' % i


def part(i, k):
    """Field k of local i."""
    return 'load ! (from ! (fld ! refl (stop !))) (look-in ! «_%d» (sub ! %d refl (whole !)))' % (i, k)


def operands(texts):
    """The arguments of a call."""
    out = '(no-more !)'
    for t in reversed(texts):
        out = '(and-then ! (%s) %s)' % (t, out)
    return out
