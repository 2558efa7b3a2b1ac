"""What a walk writes for a value of each type. `x` is the name of a value, `p` the text of the proof that a machine
value is its own: x < 2 ^ width for a number without sign, and Is row x vs for every other type."""

WIDTH = {'u8': 8, 'u16': 16, 'u32': 32, 'u64': 64, 'usize': 64, 'i16': 16, 'i32': 32}
# what stands for an element of a slice in the logic
ELEMENT = {'u8': 'ℕ', 'u64': 'ℕ', 'usize': 'ℕ', 'f64': '(f64 .Denot)', 'i16': 'ℤ', 'i32': 'ℤ', 'bool': 'Bool',
           'Change': 'Change'}


def row_of(element):
    """The row of the element of a slice or of what a reference points to."""
    return element if element in ELEMENT and element != 'Change' else element + '-T.the-row'


class Value:
    """A type by value."""
    suffix = 'is'       # a parameter x has the proof x-is

    def fact(self, x):
        return 'Is %s %s (%s ∷ [])' % (self.row, x, self.val(x))

    def evidence(self, p):
        """The proof of Is row x vs, from p."""
        return p

    def owned(self, x, p):
        """The step that makes x owned: everything here is plain, so that it is had for nothing."""
        return 'owned ! %s (Is %s) (%s) %s _ %s $ ' % (self.row, self.row, self.makes, x, self.evidence(p))


class Uint(Value):
    suffix = 'fits'

    def __init__(self, name):
        self.row, self.w, self.denot = name, 'w%d' % WIDTH[name], 'ℕ'
        self.vals, self.tells = 'uint-vals ' + self.w, 'uint-tells ' + self.w
        self.makes, self.mir = 'uint-makes 𝓤 H A W ' + self.w, '(tyInt %s)' % self.w

    def val(self, x):
        return 'vint %s %s' % (self.w, x)

    def fact(self, x):
        return '%s < 2 ^ %s' % (x, self.w[1:])

    def evidence(self, p):
        return '(refl, %s)' % p

    def typed(self, x, p):
        return '(tt, record { fits = %s })' % p

    def lands(self, r, isr):
        """That a result has its type, and the equation of its machine value."""
        return 'uint-lawful 𝓤 H A W %s .typed %s _ %s .0' % (self.w, r, isr), '(%s .0)' % isr

    def known(self, r, isr):
        return '%s .1' % isr


class Sint(Value):
    def __init__(self, name):
        self.row, self.w, self.denot = name, 'w%d' % WIDTH[name], 'ℤ'
        self.vals, self.tells = 'sint-vals ' + self.w, 'sint-tells ' + self.w
        self.makes, self.mir = 'sint-makes 𝓤 H A W ' + self.w, '(tyInt %s)' % self.w

    def val(self, x):
        return 'vint %s (ofZ %s %s)' % (self.w, self.w, x)

    def typed(self, x, p):
        return '(sint-lawful 𝓤 H A W %s .typed %s _ %s .0)' % (self.w, x, p)


class Bool(Value):
    row, denot, vals, tells, mir = 'bool', 'Bool', 'bool-vals', 'bool-tells', 'tyBool'
    makes = 'bool-makes 𝓤 H A W'

    def val(self, x):
        return 'vbool %s' % x

    def typed(self, x, p):
        return '(tt, tt)'

    def lands(self, r, isr):
        return 'bool-lawful 𝓤 H A W .typed %s _ %s .0' % (r, isr), isr

    def known(self, r, isr):
        return 'refl'


class Declared(Value):
    """A struct or an enum of the project."""

    def __init__(self, name):
        self.name = self.denot = name
        self.row, self.mir = name + '-T.the-row', name + '-T′.mir'
        laws = '%s-T.the-type %s-T′.the-laws' % (name, name)
        self.both = laws
        self.vals, self.tells = '%s.vals %s' % (self.how, laws), '%s.tells %s' % (self.how, laws)
        self.makes = '%s.makes %s-T.the-type %s-T′.the-plain 𝓤 H A' % (self.how, name, name)

    def val(self, x):
        return '%s.val %s %s' % (self.how, self.both, x)

    def lawful(self, x, p):
        return '%s.lawful %s 𝓤 H A W %s.typed %s _ %s .0' % (self.how, self.both, self.extra, x, p)

    def typed(self, x, p):
        return '(%s)' % self.lawful(x, p)

    def lands(self, r, isr):
        return self.lawful(r, isr), '(%s.tells %s %s _ %s)' % (self.how, self.both, r, isr)

    def known(self, r, isr):
        return 'subst (λ (u : List Val). Is %s %s u) (%s %s _ %s) %s' % (self.row, r, self.tells, r, isr, isr)


class Struct(Declared):
    how, extra = 'LL', ''

    def owed(self, x, p, at):
        """The proof of field number `at`."""
        return 'LL.owed %s %s _ %s %s' % (self.both, x, p, dots(at))


class Enum(Declared):
    how, extra = 'EL', 'tt '


class Unit:
    row, denot, mir = 'unit', 'Unit {0}', 'tyUnit'

    def val(self, r):
        return 'vunit'

    def fact(self, r):
        return 'Unit {0}'

    def owned(self, r, p):
        return 'feqI ! (List Val) (vunit ∷ []) (vunit ∷ []) refl $ '


class Array:
    """An array of structs by value, as a call returns it. A local that holds one is lent whole as a `&mut [T]`, or its
    first elements as a `&[T]`; between the calls its list lies in memory (example_structs, proofs/Arrays)."""

    def __init__(self, element, count):
        self.element, self.count, self.of = element, count, row_of(element)
        self.row, self.list = '(Array %s %d)' % (self.of, count), 'List ' + element
        self.denot, self.mir = self.list, '(tyArray %s-T′.mir %d)' % (element, count)
        self.terms = '%s %d' % (self.of, count)
        self.room = '(lit< tt, lit< tt)'

    def typed(self, x, p):
        return '(array-lawful 𝓤 H A W %s (LL.lawful %s-T.the-type %s-T′.the-laws 𝓤 H A W) %d .typed %s _ %s .0)' % (
            self.of, self.element, self.element, self.count, x, p)


class Lent:
    """A parameter that is a reference: `&mut T`, `&mut [T]` or `&[T]`."""

    def __init__(self, element):
        self.element, self.row = element, row_of(element)
        self.list = 'List ' + ELEMENT.get(element, element)


class MutRef(Lent):
    def __init__(self, element):
        super().__init__(element)
        self.inner = Uint(element) if element in ELEMENT else Struct(element)
        self.denot = self.inner.denot


class MutSlice(Lent):
    word = 'Mut'


class ShrSlice(Lent):
    word = 'Shr'


def dots(i, last='.0'):
    """The projections to part i of a right-nested tuple."""
    return ' '.join(['.1'] * i + [last])


# the fields of the structs that a walk takes apart, in their order
FIELDS = {
    'Handle': ['offset', 'end', 'position', 'count', 'saved'],
    'Moved': ['answer', 'k', 'handle'],
    'Replayed': ['answer', 'k'],
    'Marked': ['answer', 'handle'],
}
