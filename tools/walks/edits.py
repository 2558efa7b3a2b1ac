"""Must-fail edits that carry a walk along. Such an edit exchanges an argument of a function's first call, or leaves what
a reference points to as it was; the walk is changed with it, so that what the prover refuses is the equation and not the
walk."""

# crate, name, which wrong program it is; source file, line and wrong line; function, and how its description changes
EDITS = [
    ('struct_paste', 'clip_height_for_width', 'a pasted clip is taken to be as wide as it is high', 'lib.rt',
     '        clip_w,', '        clip_h,', 'paste', lambda f: f.wrong('clip-w', 'clip-h')),
    ('struct_move', 'moved_across_by_dy', 'a selection is moved by dy across, too', 'lib.rt', '        dx,',
     '        dy,', 'move_selection', lambda f: f.wrong('dx', 'dy')),
    ('struct_push', 'push_leaves_the_handle', 'push leaves the handle as it was', 'recording.rt',
     '    *handle = s.handle;', '    // the handle stays', 'push', lambda f: f.leaving('handle')),
    ('struct_history', 'undo_leaves_the_handle', 'undo leaves the handle as it was', 'moving.rt',
     '    *handle = undone.handle;', '    // the handle stays', 'undo', lambda f: f.leaving('handle')),
]


def edit(functions, crate, name, what, file, line, wrong_line, function, change):
    """The path and the text of an edit."""
    f = next(f for f in functions if f.path[0] == crate and f.name == function)
    proof = 'proofs/%s/Proof.antt' % '/'.join(f.path[1:])
    out = ['# %s; its walk is carried along, so that the equation refuses it' % what,
           'file: src/' + file, 'old: ' + line, 'new: ' + wrong_line]
    for old, new in pieces(f.text(), change(f).text()):
        out += ['file: ' + proof, 'old: ' + old, 'new: ' + new]
    return 'crates/%s/must-fail/%s.edit' % (crate, name), '\n'.join(out) + '\n'


def pieces(old, new):
    """Pairs that turn old into new, one after the other: each stands once in the text when its turn comes."""
    text = old
    for i, line in enumerate(new.split('\n')):
        was = text.split('\n')[i]
        if was != line:
            pair = piece(text, was, line)
            text = text.replace(*pair)
            yield pair
    assert text == new


def piece(text, was, line):
    """The least part of a line, with what stands around it, that holds its difference and stands once in the text."""
    a = next(i for i, (x, y) in enumerate(zip(was, line)) if x != y)
    b = next(i for i, (x, y) in enumerate(zip(reversed(was), reversed(line))) if x != y)
    b = min(b, len(was) - a, len(line) - a)
    for around in range(8, len(was)):
        for left, right in ((around, 4), (4, around), (around, around)):
            p, q = max(0, a - left), max(0, b - right)
            part = was[p:len(was) - q]
            if part.strip() == part and text.count(part) == 1:
                return part, line[p:len(line) - q]
    if text.count(was.strip()) == 1:
        return was.strip(), line.strip()
    raise ValueError(was)
