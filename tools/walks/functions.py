"""The functions whose walks are written by tools/walks/make: one entry a function, in the words of chains.py.

A new parameter of a function is one entry in its list of parameters, one in the arguments of the calls that take it,
and its type in TYPES if no other function has it. Contracts are the text of `requires` and `ensures` in src/, without
`now`."""
from chains import Call, Deref, Field, Fn, Give, Len, Let, Return, Store, last
from loops import Acc, Loop
from kinds import Array, Bool, Enum, MutRef, MutSlice, ShrSlice, Sint, Struct, Uint, Unit

USIZE = Uint('usize')
COUNTED, ANSWER, REMOVED, REMOVAL, SHIFTED, MADE = map(
    Enum, ['Counted', 'Answer', 'Removed', 'Removal', 'Shifted', 'MadeOp'])
MOVED, REPLAYED, MARKED, HANDLE = map(Struct, ['Moved', 'Replayed', 'Marked', 'Handle'])

# what a parameter is, or what it is a slice of, by its name; another type is written behind the name
TYPES = {
    # the sheet
    'n': 'usize', 'w': 'usize', 'h': 'usize', 'k': 'usize', 'palette': 'u8', 'lab': 'f64', 'indices': 'i16',
    'locks': 'bool',
    # an edit and the history
    'no': 'u8', 'edit': Enum('Edit'), 'kind': Enum('ListKind'), 'replay': Bool(), 'limited': Bool(), 'permitted': 'u8',
    'loaded': Bool(), 'curve': 'f64', 'list': 'Change', 'form': Enum('Form'), 'journal': 'u8', 'offset': 'usize',
    'handle': Struct('Handle'), 'marks': 'u8',
    # the tools
    'area': Enum('Area'), 's': Struct('Selection'), 'points': 'i32', 'size': 'usize', 'index': 'i16', 'filled': Bool(),
    'ax': 'i32', 'ay': 'i32', 'bx': 'i32', 'b-y': 'i32', 'x': 'i32', 'y': 'i32', 'dx': 'i32', 'dy': 'i32',
    'clip-w': 'usize', 'clip-h': 'usize', 'clip': 'i16', 'tool': 'u8', 'count': 'usize', 'stroke': 'Change',
    'on': Bool(), 't': 'usize', 'flat': 'u64', 'more': 'u64', 'scratch': 'u64', 'out': 'Change',
}
SHEET = 'w, h, k, &[palette], &[lab], &[indices]'
DOCUMENT = SHEET + ', &[locks]'
LENT_DOCUMENT = 'w, h, &mut k, &mut [palette], &mut [lab], &mut [indices], &mut [locks]'
CURVE = 'loaded, &[curve]'
EDIT = 'limited, &[permitted], %s, edit, &[list]' % CURVE


def parameters(*texts):
    """`x` by value, `&mut x`, `&mut [x]` and `&[x]`; `x: T` where TYPES has another type."""
    out = []
    for text in ', '.join(texts).split(', '):
        kinds = {'&mut [': MutSlice, '&[': ShrSlice, '&mut ': MutRef}
        kind = next((kinds[k] for k in kinds if text.startswith(k)), None)
        name, _, other = text.replace('&mut ', '').strip('&[]').partition(': ')
        type = other or TYPES[name]
        if kind:
            out.append((name, kind(getattr(type, 'name', type))))
        elif isinstance(type, str):
            out.append((name, (Sint if type[0] == 'i' else Uint)(type)))
        else:
            out.append((name, type))
    return out


# ---- where the words of the contracts and the laws stand
def words(text):
    """A line a module: its crate, specs or proofs, its name, and words that a proof may use of it."""
    return [tuple(line.split(None, 3)) for line in text.strip().split('\n')]


LISTS = words('''
base specs Lists over
base specs Answer filled
struct_change specs Struct packedOf
change_list specs Listed countOf InScratch
change_list proofs InScratch copy-fits copied
struct_change specs Scratch needing
sheet specs Sheet sheetOf
''')
STATE_WORDS = words('''
base specs Limits maxChanges maxJournal
base specs Checks orElse firstOf
color_curve specs Curve curveOf srgb labBy CurveFits
sheet specs Sheet sheetOf
edit specs Change as flat
edit specs List listOf emptyPixels
edit specs Checks permittedOf leftChecks
edit_pixels specs Inside bare
edit_checks specs Marks Checkable MarksFor
edit_list specs Paintable Paintable
edit_locks specs Movable Redoable
edit_apply specs Redoable Finishable
journal_write specs List Puttable
struct_change specs Struct packedOf
struct_edit specs Walk packedAll flatAll walkedOf putUpto paintUpto checkUpto markUpto
history_ledger specs Journal pushOf pushed undoOf redoOf markOf
history_ledger specs Calls Outcome
history_model specs Document documentOf documentRest documentDone
history_model specs Editing givenOf editingBy
history_model specs Calls stateOf leaves Standing Acceptable outcomeOf
history_model specs Replay replayChecks replayed replayOf
history_model proofs ReplayChecks replayable
history_push_checks specs Steps isStill Begun PushNumbered pushedOr fullNumber
history_push specs Finish finished Finishes
history_push proofs Pushed push-is
history_push_checks proofs PushSteps number-fits
struct_push specs Lent leavesLent
''')
FUNCTIONS = []


def function(path, params, result, said, steps, end, **more):
    FUNCTIONS.append(Fn(path, params, result, said, steps, end, **more))


def loop(path, params, result, said, **more):
    FUNCTIONS.append(Loop(path, params, result, said, **more))


# ---- lists packed, unpacked, copied and judged
SLICES = words('''
base specs Lists over some_as_some-of
edit specs Change outside unpacked
struct_change specs Struct packedOf structOf
struct_change proofs Loops none packs packs-over unpacks Unpacked unpacked-none unpacked-next copies copies-over
struct_change proofs Loops offUpto off-all
struct_change proofs While tests
''')
BOTH = '(n ≤ length %s) × (n ≤ length %s)'
loop('struct_change::slices::pack', parameters('&[list], n, &mut [flat]'), Unit(),
     'flat′ ≡ over (take n (map packedOf list)) flat', list='list', count='n', index='i', out='flat',
     turn=Call('Packing', 'struct_change::packed', 'list[i]', Uint('u64'), 'r ≡ packedOf each'),
     after={'flat': 'packs list flat i'},
     end='ap (packs list flat) done ∙ packs-over list flat n (fit .0) (fit .1)',
     fit=BOTH % ('list', 'flat'), uses=SLICES, story='Each change is packed, and the number stored.')
loop('struct_change::slices::unpack', parameters('&[flat], n, &mut [out]'), Unit(),
     'map packedOf out′ ≡ over (take n flat) (map packedOf out)', list='flat', count='n', index='filled', out='out',
     turn=Call('Unpacking', 'struct_change::unpacked', 'flat[filled]', Struct('Change'), 'r ≡ structOf each'),
     after={'out': 'unpacks flat out i'},
     also=('Unpacked flat out i', 'unpacked-none flat out', 'unpacked-next flat out (turn .0) (within less)'
           ' (lt-of-lt-of-le (below less) (fit .1)) each-fits (also turn)'),
     end='also ∙ ap (λ (m : ℕ). over (take m flat) (map packedOf out)) done',
     fit=BOTH % ('flat', 'out'), uses=SLICES, story='Each number is unpacked, and the change stored.')
loop('struct_change::slices::copy_front', parameters('&[list], n, &mut [out]'), Unit(),
     'map packedOf out′ ≡ over (take n (map packedOf list)) (map packedOf out)', list='list', count='n', index='copied',
     out='out', after={'out': 'copies list out i'},
     end='ap (λ (m : ℕ). map packedOf (copies list out m)) done ∙ copies-over list out n (fit .0) (fit .1)',
     fit=BOTH % ('list', 'out'), uses=SLICES, story='Each change is copied.')
loop('struct_change::slices::any_outside', parameters('w, h, &[list], n'), Bool(),
     'r ≡ some-of (outside w h) (map unpacked (take n (map packedOf list)))', list='list', count='n', index='i',
     acc=Acc('off', Bool(), 'false'),
     turn=Call('Judging', 'struct_change::slices::or_outside', 'off, w, h, list[i]', Bool(),
               'r ≡ off || outside w h (unpacked (packedOf each))', to='off'),
     after={'off': 'offUpto w h list i'}, end='ap (offUpto w h list) done ∙ off-all w h list n fit', within='fit',
     fit='n ≤ length list', uses=SLICES, story='Each change is judged.')

# ---- an edit's list checked, written and painted
LISTED = words('''
base specs Checks firstOf
edit specs List paintedList
edit specs Checks changeChecks
edit_pixels specs Inside bare
edit_checks specs Marks Checkable
edit_list specs Paintable Paintable
journal_write specs List Puttable
struct_edit specs Walk flatOf flatAll none markOne checkUpto markUpto putOne putUpto PutsOne paintUpto
struct_edit proofs Checking checkable-at checked-next stopped
struct_edit proofs Putting puttable-at
struct_edit proofs Painting paintable-at
struct_change proofs While tests
''')
CHECKS = 'no replay (bare w h k indices) kind list'
loop('struct_edit::check_list', parameters('no, kind, replay, w, h, k, &[indices], &mut [marks], &[list], n'), Uint('u8'),
     '(r ≡ checkUpto {0} n) × (marks′ ≡ markUpto {0} marks n)'.format(CHECKS), list='list', count='n', index='checked',
     acc=Acc('code', Uint('u8'), 'no', while_zero=True),
     turn=Call('One', 'struct_edit::check_one', 'kind, replay, w, h, k, indices, lend marks, list[checked]', Uint('u8'),
               '(r ≡ firstOf (changeChecks replay (bare w h k indices) kind (flatOf each))) × (marks′ ≡ markOne r kind w'
               ' (flatOf each) marks-now)', to='code', asked='Checkable kind w h (length indices) (length marks-now)',
               why='checkable-at %s i zero marks-kept (fit .1)' % CHECKS),
     after={'code': 'checkUpto %s i' % CHECKS, 'marks': 'markUpto %s marks i' % CHECKS},
     step='checked-next %s marks i zero e' % CHECKS, end='stopped %s marks i n upto done' % CHECKS,
     fit='(n ≤ length list) × (no ≡ 0 → Checkable kind w h (length indices) (length marks))', uses=LISTED,
     story='The marks are lent to each check; the loop stops at the first that applies.')
loop('struct_edit::put_list', parameters('kind, form, &mut [journal], offset, &[indices], w, &[list], n'), Unit(),
     'journal′ ≡ putUpto form kind offset w indices list journal n', list='list', count='n', index='i',
     turn=Call('One', 'struct_edit::put_one', 'kind, form, lend journal, offset, i, indices, w, list[i]', Unit(),
               'journal′ ≡ putOne form kind offset i w indices (flatOf each) journal-now',
               asked='PutsOne form kind offset (length journal-now) i w (length indices) (flatOf each)',
               why='puttable-at form kind list i offset w (length indices) (lt-of-lt-of-le below (fit .0)) journal-kept (fit'
               ' .1 (lt-of-le-of-lt zero-le below))'),
     after={'journal': 'putUpto form kind offset w indices list journal i'}, end='ap journal-at done',
     fit='(n ≤ length list) × (0 < n → Puttable form kind w (length indices) (length journal - offset) (flatAll list))',
     uses=LISTED, story='The journal is lent to the writing of each change.')
loop('struct_edit::paint_list', parameters('kind, &mut [indices], w, &[list], n'), Unit(),
     'indices′ ≡ paintUpto kind w list indices n', list='list', count='n', index='painted',
     turn=Call('One', 'struct_edit::paint_one', 'kind, lend indices, w, list[painted]', Unit(),
               'indices′ ≡ paintedList kind w (flatOf each ∷ []) indices-now',
               asked='Paintable kind w (length indices-now) (flatOf each ∷ [])',
               why='paintable-at kind list i w (lt-of-lt-of-le below (fit .0)) indices-kept (fit .1 (lt-of-le-of-lt'
               ' zero-le below))'),
     after={'indices': 'paintUpto kind w list indices i'}, end='ap indices-at done',
     fit='(n ≤ length list) × (0 < n → Paintable kind w (length indices) (flatAll list))', uses=LISTED,
     story='The indices are lent to the painting of each change.')


# ---- the tools: the core leaves its list in the scratch, and the list is unpacked into out
S = '(sheetOf w h k palette lab indices)'
COUNTING = {
    'Counted': ('change_list::count_of', 'countOf'),
    'Shifted': ('tool_paste::shifted_count', 'shiftedCount'),
    'Removed': ('struct_palette::removing::removed_count', 'removedCount'),
    'Removal': ('struct_palette::removing::removal_count', 'removalCount'),
    'MadeOp': ('change_op::made_count', 'madeCount'),
}


KEEPS = 'length scratch′ ≡ length scratch-now'


def counting(result, to='n'):
    path, word = COUNTING[result.name]
    return Call('Counting', path, 'answer', USIZE, 'r ≡ %s answer' % word, to=to)


def unpacking(count, out, why):
    """The last call: as many structs as the answer counts."""
    return Call('Unpacking', 'struct_change::unpack', 'share scratch, %s, give %s' % (count, out), Unit(),
                'map packedOf {0}′ ≡ over (take {1} scratch-now) (map packedOf {0}-now)'.format(out, count),
                asked='({1} ≤ length scratch-now) × ({1} ≤ length {0}-now)'.format(out, count), why=why)


def copied(told, count, unpack, out):
    return 'copied %s e%s (map packedOf %s) (sym (length-map %s packedOf)) e%s' % (told, count, out, out, unpack)


def tool(path, core, own, result, leaves, does, keeps=True, using=''):
    """`does` is the call as a definition, without its last argument, the list in out; `keeps`: the core has a clause of
    its own that the scratch keeps its length."""
    params = parameters(SHEET, own, '&mut [scratch], &mut [out]')
    args = ', '.join(p for p, _ in params[:-2]) + ', lend scratch, out.len()'
    inside = does.replace('(length scratch)', '(length scratch-now)')
    left = 'InScratch (%s r) (length out) scratch′ (%s r) (%s)' % (COUNTING[result.name][1], leaves, inside)
    function(
        path, params, result,
        '(%s r (map packedOf out′) ≡ %s (map packedOf out)) × (length scratch′ ≡ length scratch)' % (leaves, does),
        [Call('Core', core, args, result, left, to='answer', also=KEEPS if keeps else None),
         counting(result), unpacking('n', 'out', 'copy-fits e₁ e₂'), Return('answer')],
        '%s, l₁-scratch' % copied('e₁', '₂', '₃', 'out'), uses=LISTS + words(using),
        story='`%s` leaves its list in the scratch, which is lent to it, and the list is unpacked into out; the scratch'
        ' is lent to that, too.' % core.split('::')[-1])


def draw(name, own, args):
    tool('struct_draw::' + name, 'tool_draw::%s_in' % name, 'area, ' + own, COUNTED, 'leaves',
         '%sCall %s area %s (length scratch)' % (name, S, args),
         using='tool_line specs Line point\ntool_draw specs Calls leaves %sCall' % name)


def place(name, core, own, call):
    tool('struct_%s::%s' % (name.split('_')[0], name), core, own, SHIFTED, 'left', '%s (length scratch)' % call,
         using='tool_paste_model specs Pasting pasteCall left shiftedCount\ntool_paste_model specs Moves moveCall')


draw('pencil', '&[points], size, index', 'points size index')
draw('eraser', '&[points], size', 'points size')
draw('line', 'ax, ay, bx, b-y, size, index', '(point ax ay) (point bx b-y) size index')
draw('rectangle', 'ax, ay, bx, b-y, filled, index', '(point ax ay) (point bx b-y) filled index')
place('move_selection', 'tool_move::move_selection_in', 's, dx, dy', 'moveCall %s s dx dy' % S)
place('paste', 'tool_paste::paste_in', 'clip-w, clip-h, &[clip], x, y', 'pasteCall %s clip-w clip-h clip x y' % S)

FILLS = '''
tool_fill_model specs Fill floodFillOf
tool_fill_model specs Fills replaceColorOf fillGlobalOf
'''
NEEDING = 'needing (length scratch) (length indices) (%s)'
tool('struct_fill::flooding::flood_fill', 'tool_flood_fill::flood_fill_in', 'area, x, y, index',
     COUNTED, 'filled', 'floodFillOf %s area x y index (length scratch)' % S, using=FILLS)
tool('struct_fill::index::replace_color', 'struct_fill::index::replace_color_in', 'area, old: i16, new: i16',
     COUNTED, 'filled', NEEDING % ('replaceColorOf %s area old new' % S), keeps=False, using=FILLS)
tool('struct_fill::index::fill_global', 'struct_fill::index::fill_global_in', 'area, x, y, index',
     COUNTED, 'filled', NEEDING % ('fillGlobalOf %s area x y index' % S), keeps=False, using=FILLS)

REMOVALS = '''
palette_model specs Removal remapped replaced removeEntryOf mergeEntriesOf
struct_palette specs Scratch removalCount removedCount needingRemap
'''
REMAP = 'needingRemap (length scratch) (length indices) (%s)'
tool('struct_palette::removing::remove_entry', 'struct_palette::removing::remove_entry_in', '&[locks], index: usize',
     REMOVED, 'replaced', REMAP % ('removeEntryOf %s locks index' % S), keeps=False, using=REMOVALS)
tool('struct_palette::removing::merge_entries', 'struct_palette::removing::merge_entries_in',
     '&[locks], old: usize, new: usize', REMOVAL, 'remapped', REMAP % ('mergeEntriesOf %s locks old new' % S), keeps=False,
     using=REMOVALS)


# ---- lists that are read, too: packed into flat, and their core's list unpacked
def packing(list, count, flat, why):
    now, lent = (list, list) if list == 'list' else (list + '-now', 'share ' + list)
    return Call('Packing', 'struct_change::pack', '%s, %s, lend %s' % (lent, count, flat), Unit(),
                '{2}′ ≡ over (take {1} (map packedOf {0})) {2}-now'.format(now, count, flat),
                asked='({1} ≤ length {0}) × ({1} ≤ length {2}-now)'.format(now, count, flat), why=why)


def min_usize(a, b, said, to):
    return Call('Lesser', 'base::min_usize', '%s, %s' % (a, b), USIZE, said, to=to)


def fits(flat):
    return '''
  fits : (m : ℕ) → m ≡ min (length list) (length {0}) → (m ≤ length list) × (m ≤ length {0})
  fits m e = (omega arith, omega arith)
'''.format(flat)


OP = LISTS + words('''
struct_change proofs Packing told
change_op specs Op normalizeCall made madeCount pixelsCall
''')


def normal(name, own, result, leaves, call):
    """`normalize` and `pixels`."""
    params = parameters(*own, '&[list], &mut [flat], &mut [scratch], &mut [out]')
    args = [p for p, _ in params[:-4]] + ['share flat', 'n', 'lend scratch', 'out.len()']
    told = ('(told (λ i. %s (min i (length scratch))) (map packedOf list) flat %s %s (length list) r₁ e₃ (length-map'
            ' list packedOf) e₁ l₂-flat e₂)' % (call, last(2, 2), last(3, len(args) - 2)))
    function(
        'struct_stroke::op::' + name, params, result,
        '(%s r (map packedOf out′) ≡ %s (min (length flat) (length scratch)) (map packedOf list) (map packedOf out))'
        ' × (length flat′ ≡ length flat) × (length scratch′ ≡ length scratch)' % (leaves, call),
        [Len('n', 'list'), min_usize('n', 'flat.len()', 'r ≡ min n (length flat)', 'm'),
         packing('list', 'm', 'flat', 'fits r₁ e₁'),
         Call('Core', 'struct_stroke::op::%s_packed' % name, ', '.join(args), result,
              '(l : List ℕ) → length l ≡ n → take n flat-now ≡ take (length flat-now) l → InScratch (%s r) (length out)'
              ' scratch′ (%s r) (%s (min (length flat-now) (length scratch-now)) l)'
              % (COUNTING[result.name][1], leaves, call), to='answer'),
         counting(result, 'count'), unpacking('count', 'out', 'copy-fits %s e₄' % told), Return('answer')],
        '%s, l₂-flat, l₃-scratch' % copied(told, '₄', '₅', 'out'), laws=fits('flat'), uses=OP,
        story='The list is packed into flat, `%s_packed` leaves its list in the scratch, and that is unpacked into out.'
        % name)


normal('normalize', [], COUNTED, 'filled', 'normalizeCall')
normal('pixels', ['tool'], MADE, 'made', 'pixelsCall tool')

ROOM = '(roomFor (length flat) (length more) (length scratch) count (length list))'
MEANT = '(means r₅ %s %s %s r₁ r₃ e₅ e₁ l₂-flat e₂ e₃ l₄-more e₄)' % (last(2, 2), last(4, 2), last(5, 5))
function('struct_extend::strokes::extend',
         parameters('&mut [stroke], count, &[list], &mut [flat], &mut [more], &mut [scratch]'), COUNTED,
         '(filled r (map packedOf stroke′) ≡ extendCall %s count (map packedOf list) (map packedOf stroke)) × (length'
         ' flat′ ≡ length flat) × (length more′ ≡ length more) × (length scratch′ ≡ length scratch)' % ROOM,
         [Len('n', 'list'),
          Call('Three', 'struct_extend::strokes::least_of', 'count, stroke.len(), flat.len()', USIZE,
               'r ≡ min (min count (length stroke)) (length flat)', to='held'),
          packing('stroke', 'held', 'flat', 'three-fit count (length stroke) (length flat) r₁ e₁'),
          min_usize('n', 'more.len()', 'r ≡ min n (length more)', 'm'), packing('list', 'm', 'more', 'fits r₃ e₃'),
          Call('Core', 'struct_extend::strokes::extend_packed', 'share flat, count, share more, n, stroke.len(), lend'
               ' scratch', COUNTED,
               '(stk l : List ℕ) → length stk ≡ length stroke → length l ≡ n → (count ≤ length stroke → count ≤ length'
               ' flat-now → take count flat-now ≡ take count stk) → (n ≤ length more-now → take n more-now ≡ l) → Left'
               ' r scratch′ stk l (roomFor (length flat-now) (length more-now) (length scratch-now) count n)',
               to='answer'),
          counting(COUNTED, 'total'), unpacking('total', 'stroke', 'copy-fits %s e₆' % MEANT), Return('answer')],
         '%s ∙ over-own %s count (map packedOf list) (map packedOf stroke), l₂-flat, l₄-more, l₅-scratch'
         % (copied(MEANT, '₆', '₇', 'stroke'), ROOM),
         before='''
  -- what the core leaves in the scratch
  abbrev Left : Counted → List ℕ → List ℕ → List ℕ → ℕ → Type 0
  Left r ws stk l room = InScratch (countOf r) (length stroke) ws (filled r) (extendOver room count l stk)
''', laws=fits('more') + '''
  -- what the core says of the buffers means of the lists
  means : (r : Counted) (zs ys ws : List ℕ) (h m : ℕ)
      → ((stk l : List ℕ) → length stk ≡ length stroke → length l ≡ length list
      → (count ≤ length stroke → count ≤ length zs → take count zs ≡ take count stk) → (length list ≤ length ys → take (length list) ys ≡ l)
      → Left r ws stk l (roomFor (length zs) (length ys) (length scratch) count (length list)))
      → h ≡ min (min count (length stroke)) (length flat) → length zs ≡ length flat → zs ≡ over (take h (map packedOf stroke)) flat
      → m ≡ min (length list) (length more) → length ys ≡ length more → ys ≡ over (take m (map packedOf list)) more
      → Left r ws (map packedOf stroke) (map packedOf list) {room}
  means r zs ys ws h m s e l d e′ l′ d′ =
      let k : length (map packedOf stroke) ≡ length stroke = length-map stroke packedOf in
      subst (λ (i : ℕ). Left r ws (map packedOf stroke) (map packedOf list) (roomFor (length flat) i (length scratch) count (length list))) l′
      (subst (λ (i : ℕ). Left r ws (map packedOf stroke) (map packedOf list) (roomFor i (length ys) (length scratch) count (length list))) l
      (s (map packedOf stroke) (map packedOf list) k (length-map list packedOf)
      (λ x y. stroke-front (map packedOf stroke) flat zs count h (subst (λ (i : ℕ). h ≡ min (min count i) (length flat)) (sym k) e) l d
      (subst (λ (i : ℕ). count ≤ i) (sym k) x) y)
      (λ x. list-front (map packedOf list) more ys (length list) m (length-map list packedOf) e′ l′ d′ x)))
'''.format(room=ROOM),
         uses=LISTS + words('''
change_stroke specs Stroke extendCall
struct_extend specs Places roomFor extendOver
struct_extend proofs Joined over-own stroke-front list-front three-fit
'''),
         story='The stroke and the list are packed into flat and more, `extend_packed` leaves its list in the scratch,'
         ' and that is unpacked over the stroke.')

# ---- `mirror_tiles`
TOUCHING = '(touching on (length list) t w h)'
FLAT, SCRATCH = last(5, 2), last(6, 12)
JUDGED = 'w h t on (length list) r₁ r₂ e₁ e₂'
MEANS = '(means r₁ r₂ r₃ r₄ r₆ %s %s e₁ e₂ e₃ e₄ l₅-flat e₅ e₆)' % (FLAT, SCRATCH)
function('struct_mirror::mirror_tiles', parameters(SHEET, 'area, on, t, &[list], &mut [flat], &mut [scratch], &mut'
    ' [out]'), COUNTED,
         '(filled r (map packedOf out′) ≡ mirrorLent %s area on t (map packedOf list) (length flat) (length scratch)'
         ' (map packedOf out)) × (length flat′ ≡ length flat) × (length scratch′ ≡ length scratch)' % S,
         [Len('n', 'list'), Len('places', 'flat'), Len('room', 'out'),
          Call('Touching', 'tile_mirror_checks::is_touching', 'on, n, t, w, h', Bool(), 'r ≡ touching on n t w h',
               to='touched'),
          Call('Reading', 'struct_mirror_list::read_of', 'touched, n', USIZE, 'r ≡ readOf touched n', to='read'),
          Call('Scanning', 'struct_change::any_outside', 'w, h, list, read', Bool(),
               'r ≡ some-of (outside w h) (map unpacked (take read (map packedOf list)))', to='off',
               asked='read ≤ length list',
               why='read-fits ' + JUDGED),
          min_usize('read', 'places', 'r ≡ min read places', 'm'), packing('list', 'm', 'flat', 'pack-fits %s flat r₄ e₄'
              % JUDGED),
          Call('Core', 'struct_mirror::packed::mirror_packed',
               'w, h, k, palette, lab, indices, area, on, t, off, share flat, n, lend scratch, room', COUNTED,
               '(l : List ℕ) → length l ≡ n → off ≡ straying (touching on n t w h) w h l → (touching on n t w h ≡ true'
               ' → n ≤ length flat-now → take n flat-now ≡ l) → Laid (madeOf (touching on n t w h) r) (keptOf (touching'
               ' on n t w h) r) room scratch′ l (filled r) (mirrorLent %s area on t l (length flat-now) (length'
               ' scratch-now))' % S, to='answer',
               asked='touching on n t w h ≡ true → n ≤ length flat-now → off ≡ some-of (outside w h) (map unpacked'
               ' (take n flat-now))',
               why='read-judged %s (map packedOf list) (length-map list packedOf) r₃ e₃ flat %s r₄ e₄ l₅-flat e₅'
               % (JUDGED, FLAT)),
          Call('Made', 'struct_mirror_list::made_of', 'touched, answer', USIZE, 'r ≡ madeOf touched answer',
               to='made'),
          Call('Unpacking', 'struct_change::unpack', 'share scratch, made, lend out', Unit(),
               'map packedOf out′ ≡ over (take made scratch-now) (map packedOf out-now)',
               asked='(made ≤ length scratch-now) × (made ≤ length out-now)', why='unpack-fits r₁ _ e₁ r₆ %s r₇ e₇'
               % MEANS),
          Call('Kept', 'struct_mirror_list::kept_of', 'touched, answer', USIZE, 'r ≡ keptOf touched answer',
               to='kept'),
          Call('Copying', 'struct_change::copy_front', 'list, kept, give out', Unit(),
               'map packedOf out′ ≡ over (take kept (map packedOf list)) (map packedOf out-now)',
               asked='(kept ≤ length list) × (kept ≤ length out-now)',
               why='subst (λ (i : ℕ). (r₉ ≤ i) × (r₉ ≤ length {0})) (length-map list packedOf) (subst (λ (i : ℕ). (r₉ ≤'
               ' length (map packedOf list)) × (r₉ ≤ i)) (sym l₈-out) (copy-fits r₁ _ e₁ r₆ {1} r₉ e₉))'
               .format(last(8, 2), MEANS)),
          Return('answer')],
         'laid-all r₁ _ e₁ r₆ %s r₇ r₉ e₇ e₉ (map packedOf out) (map packedOf %s) (map packedOf %s) (length-map out'
         ' packedOf) e₈ e₁₀, l₅-flat, l₆-scratch'
         % (MEANS, last(8, 2), last(10, 2)),
         laws='''
  -- what the core says of flat and the scratch means of the list
  means : (touched : Bool) (read : ℕ) (off : Bool) (m : ℕ) (r : Counted) (zs ws : List ℕ)
      → touched ≡ touching on (length list) t w h → read ≡ readOf touched (length list)
      → off ≡ some-of (outside w h) (map unpacked (take read (map packedOf list)))
      → m ≡ min read (length flat) → length zs ≡ length flat → zs ≡ over (take m (map packedOf list)) flat
      → ((l : List ℕ) → length l ≡ length list → off ≡ straying {0} w h l
      → (touching on (length list) t w h ≡ true → length list ≤ length zs → take (length list) zs ≡ l)
      → Laid (madeOf {0} r) (keptOf {0} r) (length out) ws l (filled r) (mirrorLent {1} area on t l (length zs) (length scratch)))
      → Laid (madeOf {0} r) (keptOf {0} r) (length out) ws (map packedOf list) (filled r)
      (mirrorLent {1} area on t (map packedOf list) (length flat) (length scratch))
  means touched read off m r zs ws is reads j q l d said =
      let e = length-map list packedOf in
      subst (λ (i : ℕ). Laid (madeOf {0} r) (keptOf {0} r) (length out) ws (map packedOf list) (filled r)
      (mirrorLent {1} area on t (map packedOf list) i (length scratch))) l
      (said (map packedOf list) e (read-off w h t on (length list) touched read is reads (map packedOf list) e off j)
      (read-front w h t on (length list) touched read is reads (map packedOf list) e flat zs m q l d))
'''.format(TOUCHING, S),
         uses=words('''
base specs Answer filled
struct_change specs Struct packedOf
sheet specs Sheet sheetOf
base specs Lists over some_as_some-of
edit specs Change outside unpacked
tile_mirror_checks specs Calls touching straying
struct_mirror_list specs Laid readOf madeOf keptOf Laid
struct_mirror specs Lent mirrorLent
struct_mirror proofs Laying read-fits pack-fits read-front read-off read-judged unpack-fits copy-fits laid-all
'''),
         story='A list that is touched is judged and packed into flat; `mirror_packed` leaves its result in the'
         ' scratch, and that is unpacked into out; a list that is not is copied into out.')


# ---- the state: sheet and marks, journal and handle
def document(now, k='k'):
    return '(documentOf w h %s %s)' % (k, ' '.join(x + now for x in ('palette', 'lab', 'indices', 'locks')))


def state(now, k='k', handle='handle', journal=None):
    return '(stateOf %s %s %s)' % (document(now, k), journal or 'journal' + now, handle)


GIVEN = '(givenOf limited permitted edit (packedAll list))'
SESSION = '(curveOf loaded curve)'
STATE, CALLED = state(''), state('-now', 'count', 'held')
D, COUNT = document(''), document('-now', 'count')


def stepping(name, path, by, said, end, own='', curve='', also=None):
    """`undo` and `redo`: what the call by value leaves is stored."""
    lends = [x for x in (own and 'give scratch',) if x]
    function('struct_history::moving::' + name,
             parameters(LENT_DOCUMENT, *([curve] if curve else []), 'form, &[journal], &mut handle', *([own] if own else [])),
             ANSWER, said % ('leavesLent r w h k′ palette′ lab′ indices′ locks′ journal handle′ ≡ %s %s' % (by, STATE)),
             [Call('Step', path, ', '.join(
                 ['w, h, *k, give palette, give lab, give indices, give locks', *(['loaded, curve'] if curve else []),
                  'form, journal, *handle', *lends]), MOVED,
                   'leavesLent (r .answer) w h (r .k) palette′ lab′ indices′ locks′ journal (r .handle) ≡ %s %s'
                   % (by.replace('(length scratch)', '(length scratch-now)'),
                      state('-now', 'k-now', 'handle-now', 'journal')),
                   to='s', also=also),
              Store('k', 'k'), Store('handle', 'handle'), Give('answer')], end, uses=STATE_WORDS,
             story='The borrows of palette count and handle are opened and both copied out, `%s` is called, what it'
             ' returned is stored, and the borrows are closed at it.' % path)


stepping('undo', 'history_undo::undo', 'undoOf (editingBy form srgb)', '%s', 'e₁')
stepping('redo', 'history_redo::redo', 'redoOf (editingBy form %s) (length scratch)' % SESSION,
         '(%s) × (length scratch′ ≡ length scratch)', 'e₁, l₁-scratch', own='&mut [scratch: u8]', curve=CURVE,
         also='length scratch′ ≡ length scratch-now')
function('struct_history::moving::mark_saved', parameters('form, &[journal], &mut handle'), ANSWER,
         'outcomeOf r handle′ ≡ markOf (length journal) handle',
         [Call('Step', 'history::mark_saved', 'form, journal, *handle', MARKED, 'outcomeOf (r .answer) (r .handle) ≡ markOf'
               ' (length journal) handle-now', to='s'),
          Store('handle', 'handle'), Give('answer')], 'e₁', uses=STATE_WORDS,
         story='The borrow of the handle is opened and the handle copied out, `history::mark_saved` is called, what it'
         ' returned is stored, and the borrow is closed at it.')

# ---- `replay`
REPLAYED_AS = 'replayed (r .answer) (documentOf w h (r .k) palette′ lab′ indices′ locks′) ≡ doneOr %s %s %s'
REDONE = '(documentDone (labBy %s) %%s edit (flatAll list))' % SESSION
REPLAY_WORDS = STATE_WORDS + words('''
edit_apply proofs Redoing redoable-paints
history_replay specs Steps ReplayBegun doneOr
history_replay proofs Replaying replay-finishes replay-is
struct_edit proofs Told told-length
struct_replay proofs Listed list-asks left-asks numbered paints-ask redone-list
''')
PERMITTED = '(permittedOf limited permitted)'
NAMED_SHEET = parameters('no, w, k, &mut [palette], &mut [lab], &mut [indices], &mut [locks]', CURVE, 'edit, &[list]')


def kind_of():
    return Call('Kind', 'edit::list_of', 'edit', Enum('ListKind'), 'r ≡ listOf edit', to='kind')


def walked():
    """How many changes are written and painted."""
    return Call('Walked', 'struct_edit::walked', 'no, n', USIZE, 'r ≡ walkedOf no n', to='m')


def painting(why):
    """The loop that paints the list."""
    return Call('Painting', 'struct_edit::paint_list', 'kind, lend indices, w, list, m', Unit(),
                'indices′ ≡ paintUpto kind w list indices-now m',
                asked='(m ≤ length list) × (0 < m → Paintable kind w (length indices-now) (flatAll list))', why=why)


def checking(first, replay, why):
    """The loop over the list: on `replay` the olds are compared."""
    checks = '%s %s (bare w h k indices) kind list' % (first, replay)
    return Call('Checking', 'struct_edit::check_list', '%s, kind, %s, w, h, k, indices, lend marks, list, n'
                % (first, replay), Uint('u8'),
                '(r ≡ checkUpto {0} n) × (marks′ ≡ markUpto {0} marks-now n)'.format(checks), to='checked',
                asked='(n ≤ length list) × (%s ≡ 0 → Checkable kind w h (length indices) (length marks-now))' % first,
                why=why)


def finishes(no, k, now):
    return ('{0} ≡ 0 → Finishable {1} (length palette{2}) (length lab{2}) edit × Redoable {1} (length locks{2}) edit ×'
            ' CurveFits {3}'.format(no, k, now, SESSION))


def redoes(no, k, now):
    return '(%s ≡ 0 → Paintable (listOf edit) w (length indices%s) (flatAll list)) × (%s)' % (
        no, now, finishes(no, k, now))


function('struct_replay::op::redo_list', NAMED_SHEET, REPLAYED, '(h : ℕ) → ' + REPLAYED_AS
         % ('no', D, REDONE % D),
         [Len('n', 'list'), kind_of(), walked(),
          painting('paints-ask (labBy %s) w k palette lab indices locks edit list r₁ e₁ no r₂ e₂ (fit .0)' % SESSION),
          Call('Finishing', 'history_replay::finish_replay', 'no, k, give palette, give lab, give indices, give locks,'
               ' loaded, curve, edit', REPLAYED,
               '(w h : ℕ) → ' + REPLAYED_AS % ('no', document('-now'), '(documentRest (labBy %s) %s edit)' % (SESSION, document('-now'))),
               to='', asked=finishes('no', 'k', '-now'), why='fit .1')],
         'λ (h : ℕ). e₄ w h ∙ redone-list (labBy %s) w k palette lab indices locks edit list r₁ e₁ no r₂ e₂ h %s e₃' % (SESSION, last(3, 1)),
         fit=redoes('no', 'k', ''), uses=REPLAY_WORDS,
         story='The indices are lent to the loop, and then the storage is given to the last step.')

ALL = ('%s (length marks) w h k palette lab indices locks %s edit list r₁ e₁ r₂ %s (e₂ (flatAll list) (told-length list))'
       % (SESSION, PERMITTED, last(2, 13)))
function('struct_replay::op::replay_no', parameters(DOCUMENT, EDIT, '&mut [marks]'), Uint('u8'),
         'r ≡ firstOf (replayChecks %s (length marks) %s %s edit (flatAll list))' % (SESSION, D, PERMITTED),
         [Len('n', 'list'), kind_of(),
          Call('Opening', 'history_replay::open_replay', 'w, h, k, palette, lab, indices, locks, limited, permitted,'
               ' loaded, curve, edit, n, lend marks', Uint('u8'),
               '(cs : List flat.Change) → length cs ≡ n → ReplayBegun %s (length marks-now) %s %s edit cs r marks′'
               % (SESSION, D, PERMITTED), to='opened'),
          checking('opened', 'true', 'list-asks %s (length %s) (l₂-marks)' % (ALL, last(2, 13))),
          Call('Leaving', 'history_replay::left_after', 'checked, edit, w, h, indices, share marks', Uint('u8'),
               '(cs : List flat.Change) → (checked ≡ 0 → MarksFor (listOf edit) w (w * h) cs marks-now) → r ≡ orElse'
               ' checked (firstOf (leftChecks (bare w h 0 indices) (listOf edit) cs))', to='',
               asked='checked ≡ 0 → Checkable (listOf edit) w h (length indices) (length marks-now)',
               why='left-asks {0} r₃ {1} e₃ (length {1}) (l₃-marks ∙ l₂-marks)'.format(ALL, last(3, 7)))],
         'numbered %s r₃ %s e₃ l₂-marks r₄ e₄' % (ALL, last(3, 7)),
         uses=REPLAY_WORDS, story='The marks are lent to each step.')

function('struct_replay::op::replay', parameters(LENT_DOCUMENT, EDIT, '&mut [scratch: u8]'), ANSWER,
         '(replayed r (documentOf w h k′ palette′ lab′ indices′ locks′) ≡ replayOf %s (length scratch) %s %s edit'
         ' (flatAll list)) × (length scratch′ ≡ length scratch)' % (SESSION, D, PERMITTED),
         [Deref('count', 'k'),
          Call('Numbering', 'struct_replay::op::replay_no',
               'w, h, count, share palette, share lab, share indices, share locks, limited, permitted, loaded,'
               ' curve, edit, list, lend scratch',
               Uint('u8'),
               'r ≡ firstOf (replayChecks %s (length scratch-now) %s %s edit (flatAll list))' % (SESSION, COUNT, PERMITTED),
               to='number'),
          Call('Redoing', 'struct_replay::op::redo_list', 'number, w, count, give palette, give lab, give indices,'
               ' give locks, loaded, curve, edit, list', REPLAYED,
               '(h : ℕ) → ' + REPLAYED_AS % ('number', COUNT, REDONE % COUNT), to='s',
               asked=redoes('number', 'count', '-now'),
               why='(λ z. redoable-paints edit (replayable {0} (sym e₁ ∙ z) .can)), λ z. replay-finishes {0} (sym e₁ ∙ z)'
               .format(SESSION + ' (length scratch) w h k palette lab indices locks %s edit (flatAll list)' % PERMITTED)),
          Store('k', 'k'), Give('answer')],
         '(e₂ h ∙ replay-is %s (length scratch) %s %s edit (flatAll list) r₁ e₁, l₁-scratch)' % (SESSION, D, PERMITTED),
         uses=REPLAY_WORDS,
         story="The palette count's borrow is opened and the count copied out; sheet and marks are lent as `&`"
         " for the checks and then given.")

# ---- `push`
PUSH_WORDS = STATE_WORDS + words('''
struct_push_checks proofs Listed list-asks settle-asks numbered
struct_push proofs Carrying puts-ask paints-ask finish-asks carried-out
''')
ALL = ('form %s (length marks) w h k palette lab indices locks journal handle limited permitted edit list r₁ e₁ r₂ %s (e₂'
       ' form (packedAll list) (length-map list packedOf))' % (SESSION, last(2, 15)))
function('struct_push_checks::push_no', parameters(DOCUMENT, EDIT, 'form, &[journal], handle, &mut [marks]'), Uint('u8'),
         'PushNumbered form %s (length marks) %s %s r' % (SESSION, STATE, GIVEN),
         [Len('n', 'list'), Len('size', 'journal'), Field('offset', 'handle', 'offset'), kind_of(),
          Call('Beginning', 'history_push_checks::begin', 'w, h, k, palette, lab, indices, locks, limited, permitted,'
               ' loaded, curve, edit, n, journal, handle, lend marks',
               Uint('u8'), '(f : Form) (ns : List ℕ) → length ns ≡ n → Begun f %s (length marks-now) %s (givenOf limited permitted edit'
               ' ns) r marks′' % (SESSION, STATE), to='begun'),
          checking('begun', 'false', 'list-asks %s (length %s) (l₂-marks)' % (ALL, last(2, 15))),
          Call('Settling', 'history_push_checks::settle', 'checked, edit, n, w, h, indices, share marks, form, size, offset',
               Uint('u8'),
               '(cs : List flat.Change) → (checked ≡ 0 → MarksFor (listOf edit) w (w * h) cs marks-now) → r ≡ orElse'
               ' (orElse checked (firstOf (leftChecks (bare w h 0 indices) (listOf edit) cs))) (fullNumber form offset edit n'
               ' size)', to='',
               asked='(checked ≡ 0 → Checkable (listOf edit) w h (length indices) (length marks-now)) × (checked ≡ 0 →'
               ' (n ≤ maxChanges) × (offset ≤ maxJournal))',
               why='settle-asks {0} r₃ {1} e₃ (length {1}) (l₃-marks ∙ l₂-marks)'.format(ALL, last(3, 7)))],
         'numbered %s r₃ %s e₃ l₂-marks r₄ e₄' % (ALL, last(3, 7)),
         uses=PUSH_WORDS, story='The marks are lent to each step.')


def carried(no, at):
    return ('(limited : Bool) (permitted : List ℕ) → leaves r w h palette′ lab′ indices′ locks′ journal′ ≡ pushedOr {0}'
            ' (isStill {2}) {1} (pushed (editingBy form {3}) {1} {2})'.format(no, at, GIVEN, SESSION))


def carries(no, at):
    return ('({0} ≡ 0 → Standing {1}) × ({0} ≡ 0 → emptyPixels (listOf edit) (length (flatAll list)) ≡ false → Acceptable'
            ' form {1} edit (flatAll list)) × ({0} ≡ 0 → CurveFits {2})'.format(no, at, SESSION))


EACH = 'form w h k palette lab indices locks journal handle edit list r₁ e₁ no r₂ e₂ (fit .0) (fit .1)'
function('struct_push::recording::carry_out',
         parameters('no, w, h, k, &mut [palette], &mut [lab], &mut [indices], &mut [locks]', CURVE, 'edit, &[list],'
                    ' form, &mut [journal], handle'),
         MOVED, carried('no', STATE),
         [Len('n', 'list'), Field('offset', 'handle', 'offset'), kind_of(), walked(),
          Call('Writing', 'struct_edit::put_list', 'kind, form, lend journal, offset, share indices, w, list, m', Unit(),
               'journal′ ≡ putUpto form kind offset w indices-now list journal-now m',
               asked='(m ≤ length list) × (0 < m → Puttable form kind w (length indices-now) (length journal-now - offset)'
               ' (flatAll list))', why='puts-ask %s' % EACH),
          painting('paints-ask %s' % EACH),
          Call('Finishing', 'history_push::finish',
               'no, k, give palette, give lab, give indices, give locks, loaded, curve, edit, n, form, give journal, handle', MOVED,
               '(w h : ℕ) → leaves r w h palette′ lab′ indices′ locks′ journal′ ≡ pushedOr no (emptyPixels (listOf edit)'
               ' n) {0} (finished form (labBy {1}) {0} edit n)'.format(state('-now'), SESSION),
               to='', asked='(no ≡ 0 → emptyPixels (listOf edit) n ≡ false → Finishes form k palette-now lab-now locks-now'
               ' journal-now handle edit n) × (no ≡ 0 → CurveFits %s)' % SESSION,
               why='finish-asks %s %s (l₃-journal), fit .2' % (EACH, last(3, 2)))],
         'λ (limited : Bool) (permitted : List ℕ). e₅ w h ∙ carried-out %s %s limited permitted %s %s e₄ e₃'
         % (EACH, SESSION, last(4, 1), last(3, 2)),
         fit=carries('no', STATE), uses=PUSH_WORDS, story='Journal and indices are lent to the loops, and then given'
         ' to the last step.')

function('struct_push::recording::push',
         parameters(LENT_DOCUMENT, EDIT, 'form, &mut [journal], &mut handle, &mut [scratch: u8]'), ANSWER,
         '(leavesLent r w h k′ palette′ lab′ indices′ locks′ journal′ handle′ ≡ pushOf (editingBy form %s) (length scratch)'
         ' %s %s) × (length scratch′ ≡ length scratch)' % (SESSION, STATE, GIVEN),
         [Deref('count', 'k'), Deref('held', 'handle'),
          Call('Numbering', 'struct_push_checks::push_no',
               'w, h, count, share palette, share lab, share indices, share locks, limited, permitted, loaded,'
               ' curve, edit, list, form, share journal, held, lend scratch',
               Uint('u8'), 'PushNumbered form %s (length scratch-now) %s %s r' % (SESSION, CALLED, GIVEN), to='number'),
          Call('Carrying', 'struct_push::recording::carry_out',
               'number, w, h, count, give palette, give lab, give indices, give locks, loaded, curve, edit, list, form, give journal,'
               ' held', MOVED,
               carried('number', CALLED), to='s',
               asked=carries('number', CALLED), why='(λ z. e₁ .stands z), (λ z t. e₁ .fine z t), λ z. number-fits form %s (length scratch) %s %s r₁ (e₁ .value) z'
               % (SESSION, STATE, GIVEN)),
          Store('k', 'k'), Store('handle', 'handle'), Give('answer')],
         '(e₂ limited permitted ∙ push-is form %s (length scratch) %s %s r₁ (e₁ .value), l₁-scratch)' % (SESSION, STATE, GIVEN),
         uses=PUSH_WORDS,
         story='The borrows of palette count and handle are opened and both copied out; sheet, marks and journal'
         ' are lent as `&` for the checks and then given.')

# ---- the example: palette count, handle and list are locals, which are lent
EXAMPLE = STATE_WORDS + words('''
base specs Answer filled
change_list specs Listed countOf
tool_draw specs Calls pencilCall
example_structs specs Lent movedOf blanks changesOf noChange
example_structs proofs Arrays LentFront lend-array array-back lend-front front-back
example_structs proofs Drawn drawn-fits drawn-is
''')


def small(k, now='', of='sheetOf', own=()):
    return '(%s 6 4 %s %s)' % (of, k, ' '.join(x + now for x in ('palette', 'lab', 'indices', *own)))


def marked(k, now=''):
    return small(k, now, 'documentOf', ['locks'])


PENCIL = 'pencilCall %s area points 1 (pos 1) %s'
UNLOADED = '(editingBy form (curveOf false curve))'
PUSHED = 'pushOf ' + UNLOADED + ' (length marks) (stateOf %s journal handle) (givenOf false permitted edit %s)'
MAKING = 'r ≡ movedOf answer colors held'
LEAVES = 'leaves r 6 4 palette′ lab′ indices′ locks′ journal′ ≡ '
function(
    'example_structs::lent::recorded',
    parameters('k, &mut [palette], &mut [lab], &mut [indices], &mut [locks], &[permitted], &[curve], edit, &[list],'
               ' form, &mut [journal], handle, &mut [marks]'), MOVED, LEAVES + PUSHED % (marked('k'), '(packedAll list)'),
    [Let('colors', 'k'), Let('held', 'handle'),
     Call('Pushing', 'editor::structs::push', '6usize, 4usize, &mut colors, give palette, give lab, give indices,'
          ' give locks, false, permitted, false, curve, edit, list, form, give journal, &mut held, give marks', ANSWER,
          '(leavesLent r 6 4 colors′ palette′ lab′ indices′ locks′ journal′ held′ ≡ pushOf %s (length marks-now)'
          ' (stateOf %s journal-now held-now) (givenOf false permitted edit (packedAll list))) × (length marks′ ≡'
          ' length marks-now)' % (UNLOADED, marked('colors-now', '-now')), to='answer'),
     Call('Making', 'example_structs::lent::moved', 'answer, colors, held', MOVED, MAKING, to='')],
    'ap (λ (m : Moved). leaves m 6 4 %s %s %s %s %s) e₂ ∙ e₁ .0' % tuple(last(1, i) for i in (3, 4, 5, 6, 14)),
    uses=EXAMPLE, story='Palette count and handle are put into locals, which are lent to push.')
function(
    'example_structs::lent::stroke',
    parameters('k, &mut [palette], &mut [lab], &mut [indices], &mut [locks], area, &[points], &mut [scratch],'
               ' &[permitted], &[curve], edit, form, &mut [journal], handle, &mut [marks]'), MOVED,
    LEAVES + PUSHED % (marked('k'), '(changesOf (%s blanks))' % (PENCIL % (small('k'), '(length scratch)'))),
    [Call('Blank', 'example_structs::lent::blank', '', Array('Change', 24), 'r ≡ replicate 24 noChange', to='list'),
     Call('Drawing', 'editor::structs::pencil', '6usize, 4usize, k, share palette, share lab, share indices, area,'
          ' points, 1usize, 1i16, give scratch, &mut list', COUNTED,
          '(filled r (map packedOf list′) ≡ %s (map packedOf list-now)) × (length scratch′ ≡ length scratch-now)'
          % (PENCIL % (small('k', '-now'), '(length scratch-now)')), to='drawn'),
     Call('Counting', 'example_structs::lent::count', 'drawn', USIZE, 'r ≡ countOf drawn', to='n'),
     Call('Recording', 'example_structs::lent::recorded', 'k, give palette, give lab, give indices, give locks, permitted,'
          ' curve, edit, front list n, form, give journal, handle, give marks', MOVED,
          LEAVES + 'pushOf ' + UNLOADED + ' (length marks-now) (stateOf %s journal-now handle) (givenOf false permitted edit'
          ' (packedAll list-now))' % marked('k', '-now'), to='',
          fits='subst (λ (l : List Change). r₃ ≤ length l) e₁ (drawn-fits %s area points 1 (pos 1) (length scratch) r₂'
          ' (map packedOf %s) r₁ r₃ (e₂ .0) e₃)' % (small('k'), last(2, 11)))],
    'e₄ ∙ ap (λ (ns : List ℕ). {0}) (drawn-is ({1}) r₂ {2} r₁ (replicate 24 noChange) r₃ (e₂ .0) e₃ e₁)'
    .format(PUSHED % (marked('k'), 'ns'), PENCIL % (small('k'), '(length scratch)'), last(2, 11)), uses=EXAMPLE,
    story='The list is a local array, which is lent: the whole array to the pencil, and as much of it as the pencil'
    ' filled to `recorded`.')


def lent(name, call, by, own=(), curve=(), also=None):
    """`undone` and `redone`: palette count and handle are lent for one call."""
    now = by.replace('(length marks)', '(length marks-now)')
    said = 'leavesLent r 6 4 colors′ palette′ lab′ indices′ locks′ journal held′ ≡ %s (stateOf %s journal held-now)' % (
        now, marked('colors-now', '-now'))
    function(
        'example_structs::lent::' + name,
        parameters('k, &mut [palette], &mut [lab], &mut [indices], &mut [locks]', *curve, 'form, &[journal], handle', *own), MOVED,
        'leaves r 6 4 palette′ lab′ indices′ locks′ journal ≡ %s (stateOf %s journal handle)' % (by, marked('k')),
        [Let('colors', 'k'), Let('held', 'handle'),
         Call('Step', 'editor::structs::' + call,
              ', '.join(['6usize, 4usize, &mut colors, give palette, give lab, give indices, give locks',
                         *(['false, curve'] if curve else []), 'form, journal, &mut held', *(['give marks'] if own else [])]), ANSWER, '(%s)%s' % (said, also) if also else said, to='answer'),
         Call('Making', 'example_structs::lent::moved', 'answer, colors, held', MOVED, MAKING, to='')],
        'ap (λ (m : Moved). leaves m 6 4 {0} {1} {2} {3} journal) e₂ ∙ e₁{4}'
        .format(*(last(1, i) for i in (3, 4, 5, 6)), ' .0' if also else ''), uses=EXAMPLE,
        story='Palette count and handle are put into locals, which are lent for the call; what it leaves in them is'
        ' returned.')


lent('undone', 'undo', 'undoOf (editingBy form srgb)')
lent('redone', 'redo', 'redoOf %s (length marks)' % UNLOADED, ['&mut [marks]'], ['&[curve]'],
     ' × (length marks′ ≡ length marks-now)')
function('example_structs::lent::saved', parameters('form, &[journal], handle'), HANDLE,
         'r ≡ markOf (length journal) handle .leaves',
         [Let('held', 'handle'),
          Call('Marking', 'editor::structs::mark_saved', 'form, journal, &mut held', ANSWER,
               'outcomeOf r held′ ≡ markOf (length journal) held-now', to='answer'),
          Return('held')],
         'ap (λ (o : Outcome Handle). o .leaves) e₁', uses=EXAMPLE,
         story='The handle is put into a local, which is lent for the call; what it leaves there is returned.')
