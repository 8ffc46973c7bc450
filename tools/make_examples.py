#!/usr/bin/env python3
"""Makes the example folders examples/NAME and the case folders crates/test_bench/data/NAME, each with
card.bin, kernel.bin, data.bin and expected.txt, the folders of groups examples/group_NAME and the case folders
crates/run_group/cases/NAME, with cards.bin, kernel.bin, data.bin, local.bin and expected.txt, the sheets of
examples/class with what ./mark and ./sheet print of them, and the stdout of crates/bench, crates/run_group,
crates/test_bench, crates/mark and crates/model_sheet.

The kernels are written as text and encoded by tools/case_files.py. The expected printout, the model sheet and the
marks are made by the plain Rust reference, never by the proved programs; the columns of a step are read from the
reference's sheet.

usage: make_examples.py REFERENCE_PROGRAM             writes the files; the program is the reference's `reference`
       make_examples.py --check REFERENCE_PROGRAM     says whether the stored files are what is made here
"""
import functools, os, struct, sys, tempfile

import case_files
from case_files import ROOT, packed, words_of

CODE, DATA, LOCAL = 0x80000000, 0x10000000, 0x20000000
card = functools.partial(case_files.card, code=CODE, data=DATA)


def cards(warps, lds=LOCAL):
    """a group's, of four lanes each"""
    return b''.join(card(numw=warps, wid=wid, lds=lds) for wid in range(warps))


def kernel(*texts):
    return packed(words_of(texts), '<')


END = kernel('endprg')

# lanes whose number is above 2 leave for the else part: a split, both parts, and the JOIN that ends both
SPLIT = kernel(
    'vid.v v1', 'vmv.v.i v2,2',
    'auipc x5,0', 'setrpc x0,x5,20',        # RPC is the JOIN, 20 bytes after the AUIPC
    'vblt v2,v1,8',                         # 2 < lane: to the word after the next
    'vadd.vi v3,v1,5',                      # the others alone
    'vadd.vi v4,v1,1',
    'join', 'endprg')

# lane l goes round l + 1 times: each turn one lane leaves, and 31 splits are open before the last one does
LOOP31 = kernel(
    'vid.v v1',
    'auipc x5,0', 'setrpc x0,x5,24',        # RPC is the JOIN
    'vmv.v.i v2,0',
    'vadd.vi v2,v2,1',                      # one turn more
    'vblt v1,v2,8',                         # lane < turns: out, to the JOIN
    'jal x0,-8',
    'join', 'endprg')

# the same loop with ENDPRG where the JOIN stood
OPEN31 = LOOP31[:-8] + END

STORE = kernel(
    'vid.v v1', 'vsll.vi v2,v1,2',
    'lui x5,0x%x' % (DATA >> 12), 'vadd.vx v2,v2,x5',
    'vadd.vi v3,v1,10', 'vsw12 v3,0(v2)',   # word l of data memory becomes 10 + l
    'endprg')



def counting(first, last):
    """the end of a kernel whose data, read word by word, must count from the first number to the last"""
    return kernel(
        'lui x5,0x%x' % (DATA >> 12),       # the first word's address
        'addi x6,x0,%d' % first, 'addi x7,x0,%d' % (last + 1),
        'lw x8,0(x5)',                      # a plain read of one word
        'bne x8,x6,20',                     # another number: to the word after ENDPRG
        'addi x5,x5,4', 'addi x6,x6,1',
        'bne x6,x7,-16',                    # the next word
        'endprg') + bytes(4)                # a word that is not in the tables


# each lane stores two private words
PRIVATE = kernel(
    'vid.v v1', 'vmv.v.i v2,0',
    'vadd.vi v3,v1,10', 'vsw.p v3,0(v2)',   # u = 0: 10 + l
    'vadd.vi v3,v1,14', 'vsw.p v3,4(v2)',   # u = 4: 14 + l
) + counting(10, 17)

# the digits x3, x2, x1 and xd of a REGEXT go on the next word's vs2, rs1 or vs1, and vd or rd: 3 on v4 is v100, 1 on x8 is x40
EXTENDED = kernel(
    'vid.v v1', 'vsll.vi v2,v1,2',
    'lui x5,0x%x' % (DATA >> 12), 'vadd.vx v2,v2,x5',   # v2: the address of word l
    'regext 0,0,0,3', 'vid.v v4',           # v100 = l
    'regext 0,0,0,1', 'addi x8,x0,600',     # x40 = 600
    'regext 0,3,1,3', 'vadd.vx v5,v4,x8',   # v101 = v100 + x40 = 600 + l
    'regexti 12,3,3', 'vadd.vi v5,v5,-16',  # v101 = v101 + 400: the bits 001100 10000, whose last five alone are -16
    'regext 0,3,0,0', 'vsw12 v5,0(v2)',     # word l of data memory becomes v101 = 1000 + l
) + counting(1000, 1003)

# digit 2 on x0 is x64, which there isn't
X64 = kernel('regext 0,0,0,2', 'addi x0,x0,1', 'endprg')

# lane 3's u is 1, so that its word crosses a boundary; the others' is 0
CROSSING = kernel(
    'vid.v v1', 'vmseq.vi v2,v1,3',
    'vadd.vi v3,v1,10', 'vsw.p v3,0(v2)',
    'endprg')


def one_word(change):
    """each lane reads one word of the data, changes it and stores it there again; v1 is the lane's number"""
    return kernel(
        'vid.v v1',
        'lui x5,0x%x' % (DATA >> 12), 'vmv.v.x v2,x5',  # the same address in every lane
        'vlw12 v3,0(v2)', change, 'vsw12 v3,0(v2)')


# each lane would store another sum
RACE = one_word('vadd.vv v3,v3,v1') + END

# all lanes store one sum
AGREE = one_word('vadd.vi v3,v3,5') + counting(7, 7)

# lanes 2 and 3 alone are written by the masked add; the merge writes all four
MASKED = kernel(
    'vid.v v1', 'vsll.vi v2,v1,2',
    'lui x5,0x%x' % (DATA >> 12), 'vadd.vx v2,v2,x5',   # v2: the address of word l
    'vmsgtu.vi v0,v1,1',                    # v0: 0, 0, 1, 1
    'vadd.vi v3,v1,10,v0.t',                # v3: 0, 0, 12, 13, where it was 0
    'vmerge.vim v4,v1,-1,v0',               # v4: 0, 1, -1, -1
    'vsw12 v3,0(v2)', 'vsw12 v4,16(v2)',
    'addi x6,x5,32',                        # then eight words must be those that stand behind them
    'lw x7,0(x5)', 'lw x8,32(x5)',
    'bne x7,x8,16',                         # another word: to the word after ENDPRG
    'addi x5,x5,4',
    'bne x5,x6,-16',                        # the next word
    'endprg') + bytes(4)
MASKED_WORDS = packed([0, 0, 12, 13, 0, 1, 0xFFFFFFFF, 0xFFFFFFFF], '<')

# a masked add into v0, which only a compare may write
MASKED_V0 = kernel('vid.v v1', 'vmsgtu.vi v0,v1,1', 'vadd.vi v0,v1,10,v0.t', 'endprg')

# the CSRs that a group's kernels read
TID, WID, LDS = 'csrrs x5,0x800,x0', 'csrrs x5,0x805,x0', 'csrrs x6,0x806,x0'


def group_sum(meeting):
    """warp w adds up w + 1 words of the data, and warp 0 the four sums; `meeting` stands between the two"""
    return kernel(
        WID, LDS,
        'addi x8,x5,1',                         # so many words,
        'mul x9,x5,x8', 'slli x9,x9,1',         # after w(w + 1)/2 words of the warps before: in bytes
        'lui x7,0x%x' % (DATA >> 12), 'add x7,x7,x9',
        'addi x10,x0,0',                        # the sum
        'lw x11,0(x7)', 'add x10,x10,x11',
        'addi x7,x7,4', 'addi x8,x8,-1',
        'bne x8,x0,-16',                        # the next word
        'slli x12,x5,2', 'add x12,x12,x6',
        'sw x10,0(x12)',                        # word w of local memory
        meeting,
        'bne x5,x0,48',                         # all but warp 0: to the last ENDPRG
        'lw x11,0(x6)', 'lw x12,4(x6)', 'lw x13,8(x6)', 'lw x14,12(x6)',
        'add x11,x11,x12', 'add x13,x13,x14', 'add x10,x11,x13',
        'addi x15,x0,%d' % sum(NUMBERS),
        'beq x10,x15,8',                        # the right sum: over the first ENDPRG
        'endprg',                               # wrong
        'endprg',                               # right
        'endprg')                               # the other warps


NUMBERS = range(1, 11)                          # 1 + 2 + 3 + 4 words

# warps 0 and 1 wait; warp 2 goes round three times and ends without having arrived
GROUP_ENDED = kernel(
    WID, 'addi x6,x0,2',
    'beq x5,x6,16',                             # warp 2: to the word after the first ENDPRG
    'barrier', 'addi x7,x0,1', 'endprg',
    'addi x8,x0,3', 'addi x8,x8,-1', 'bne x8,x0,-4',
    'endprg')

# each thread reads its word of local memory; warp 2 takes two steps more, so that the others wait by then
GROUP_STOP = kernel(
    TID, LDS,
    'sltiu x7,x5,8', 'bne x7,x0,12',            # TID below 8, so warp 0 or 1: over the next two words
    'addi x0,x0,0', 'addi x0,x0,0',
    'vid.v v1', 'vadd.vx v1,v1,x5',             # the thread's number
    'vsll.vi v2,v1,2', 'vadd.vx v2,v2,x6',
    'vlw12 v3,0(v2)',
    'barrier', 'endprg')

# each thread reads its word of the data and stores it in the first word of local memory
GROUP_CLASH = kernel(
    TID, LDS,
    'vid.v v1', 'vadd.vx v1,v1,x5',             # the thread's number
    'vsll.vi v2,v1,2', 'lui x7,0x%x' % (DATA >> 12), 'vadd.vx v2,v2,x7',
    'vlw12 v3,0(v2)',
    'vmv.v.x v4,x6', 'vsw12 v3,0(v4)',
    'endprg')

# the four threads of warp 0 have one word, and so have those of warp 2; thread 6, of warp 1, has another than its warp
WORDS = (7, 7, 7, 7, 8, 8, 9, 8, 6, 6, 6, 6)

GROUPS = {
    # name: cards, kernel, data, local memory
    'group_sum': (cards(4), group_sum('barrier'), packed(NUMBERS, '<'), bytes(16)),
    'group_race': (cards(4), group_sum('addi x0,x0,0'), packed(NUMBERS, '<'), bytes(16)),
    'group_ended': (cards(3), GROUP_ENDED, b'', b''),
    'group_stop': (cards(3), GROUP_STOP, b'', bytes(4 * 11)),
    'group_clash': (cards(3), GROUP_CLASH, packed(WORDS, '<'), bytes(4)),
}

EXAMPLES = {
    # name: card, kernel, data; None: no such file
    'end': (card(), END, None),
    'split': (card(), SPLIT, None),
    'loop31': (card(32), LOOP31, None),
    'open31': (card(32), OPEN31, None),
    'store': (card(), STORE, bytes(16)),
    'outside': (card(), STORE, bytes(15)),
    'private': (card(numw=2, wid=1, pds=DATA), PRIVATE, bytes(32)),
    'crossing': (card(numw=2, wid=1, pds=DATA), CROSSING, bytes(32)),
    'extended': (card(), EXTENDED, bytes(16)),
    'x64': (card(), X64, None),
    'race': (card(), RACE, packed([2], '<')),
    'agree': (card(), AGREE, packed([2], '<')),
    'masked': (card(), MASKED, bytes(32) + MASKED_WORDS),
    'masked_v0': (card(), MASKED_V0, None),
}

# the folder of the sheets that ./mark marks
CLASS = (card(), SPLIT, None)

# the examples again, then wrong, missing, empty and oversized files, and the largest that are taken
CASES = {
    **EXAMPLES,
    'no-files': (None, None, None),
    'no-card': (None, END, None),
    'empty-card': (b'', END, None),
    'short-card': (card()[:49], END, None),
    'long-card': (card() + b'\0', END, None),
    'card-length': (card(length=50), END, None),
    'card-version': (card(version=2), END, None),
    'no-lanes': (card(numt=0, mask=1), END, None),
    'wide-mask': (card(mask=16), END, None),
    'odd-entry': (card(entry=CODE + 2), END, None),
    'no-kernel': (card(), None, None),
    'empty-kernel': (card(), b'', None),
    'odd-kernel': (card(), END + b'\0\0\0', None),
    'full-kernel': (card(entry=CODE + 4 * 16383), END * 16384, None),
    'long-kernel': (card(), END * 16385, None),
    'unknown-word': (card(), bytes(4), None),
    'full-data': (card(), END, bytes(65536)),
    'large-data': (card(), END, bytes(65537)),
    'larger-data': (card(), END, bytes(70000)),
}

# wrong, missing and oversized files of a group, and the most warps that it has
GROUP_CASES = {
    'no-files': (None, None, None, None),
    'no-cards': (None, END, None, None),
    'part-of-a-card': (cards(2)[:99], END, None, None),
    'later-card-first': (cards(2)[50:] + cards(2)[:50], END, None, None),
    'later-card-version': (cards(2)[:50] + card(numw=2, wid=1, version=2), END, None, None),
    'card-before-kernel': (cards(2)[:99], END + b'\0', None, None),
    'warps-of-two-groups': (cards(2)[:50] + cards(2, LOCAL + 64)[50:], END, None, None),
    'overlap': (cards(2, DATA + 12), END, bytes(13), bytes(4)),
    'side-by-side': (cards(2, DATA + 12), END, bytes(12), bytes(4)),
    'odd-kernel': (cards(2), END + b'\0', None, None),
    'long-kernel': (cards(2), END * 16385, None, None),
    'large-data': (cards(2), END, bytes(65537), None),
    'large-local': (cards(2), END, None, bytes(65537)),
    'full-memories': (cards(2), END, bytes(65536), bytes(65536)),
    'warps-32': (cards(32), GROUP_ENDED, None, None),
    'warps-33': (cards(33), END, None, None),
}

NAMES = ('card.bin', 'kernel.bin', 'data.bin')
GROUP_NAMES = ('cards.bin', 'kernel.bin', 'data.bin', 'local.bin')


def store(folder, files):
    """writes each (name, content)"""
    for file, content in files:
        if content is not None:
            with open(os.path.join(folder, file), 'wb') as f:
                f.write(content)


def reference_on(files, reference, before=(), after=(), more=(), out=None):
    """what the reference prints in a folder with the files and the (name, content) of `more`, or the file `out` that it writes there"""
    with tempfile.TemporaryDirectory() as folder:
        store(folder, (*zip(NAMES, files), *more))
        printed = case_files.output_of(reference, *before, *NAMES, *after, cwd=folder)
        if out is None:
            return printed
        with open(os.path.join(folder, out), 'rb') as f:
            return f.read()


def printout(files, reference):
    return reference_on(files, reference)


def group_printout(files, reference):
    with tempfile.TemporaryDirectory() as folder:
        store(folder, zip(GROUP_NAMES, files))
        return case_files.output_of(reference, 'group', folder)


# ---- the class: sheets of the split, by what is wrong with them

HEAD, LINE = 5, 13


def sheet_of(lines):
    body = b''.join(lines)
    return struct.pack('>IB', 1 + len(body), 1) + body


def lines_of(sheet):
    return [sheet[at:at + LINE] for at in range(HEAD, len(sheet), LINE)]


def columns(line):
    return '%08x  %08x  %08x  %d' % struct.unpack('>IIIB', line)


COLUMNS = 'pc        word      mask      splits'


def table(sheet):
    """what ./sheet prints"""
    rows = ['%4d  %s' % (1 + i, columns(line)) for i, line in enumerate(lines_of(sheet))]
    return ''.join(row + '\n' for row in ['step  ' + COLUMNS, *rows]).encode()


def class_sheets(model):
    """name and bytes; None: no such file"""
    lines = lines_of(model)
    split = 4                               # the VBLT: its mask with one bit wrong
    wrong = bytearray(lines[split])
    wrong[11] ^= 1
    return {
        'full.bin': model,
        'one_bit.bin': sheet_of(lines[:split] + [bytes(wrong)] + lines[split + 1:]),
        'short.bin': sheet_of(lines[:-1]),
        'long.bin': sheet_of(lines + lines[-1:]),
        'empty.bin': b'',
        'missing.bin': None,
    }


def shown(model, sheet, mark):
    """what ./mark --show prints below a sheet's line"""
    if not mark.startswith(b'differs'):
        return b''
    at = int(mark.split()[-1]) - 1
    rows = [' ' * 9 + COLUMNS, 'expected ' + columns(lines_of(model)[at]), 'given    ' + columns(lines_of(sheet)[at])]
    return ''.join(row + '\n' for row in rows).encode()


def class_files(reference):
    """the files of examples/class but the launch's, and the stdout of the programs that rt runs on them"""
    model = reference_on(CLASS, reference, ('sheet',), ('model.bin',), out='model.bin')
    sheets = class_sheets(model)
    marks = {name: reference_on(CLASS, reference, ('mark',), (name,), ((name, sheet),)) for name, sheet in sheets.items()}

    def marked(folder, show):
        lines = ((folder + name).encode() + b': ' + mark + (shown(model, sheets[name], mark) if show else b'') for name, mark in marks.items())
        return b''.join(lines)

    made = {'marked.txt': marked('examples/class/', False), 'shown.txt': marked('examples/class/', True), 'table.txt': table(model)}
    made |= {name: sheet for name, sheet in sheets.items() if sheet is not None}
    return made, {'crates/mark/stdout': marked('', True), 'crates/model_sheet/stdout': table(model)}


def contents(reference):
    """the path of every file, and its content"""
    printed = {name: printout(files, reference) for name, files in CASES.items()}
    # rt runs bench on the first example, and test_bench on every case in the order above
    made = {'crates/bench/stdout': printed['end'], 'crates/test_bench/stdout': b''.join(printed.values())}
    folders = {'crates/bench/data': EXAMPLES['end'], 'examples/class': CLASS, 'crates/mark/data': CLASS, 'crates/model_sheet/data': CLASS}
    sheets, stdouts = class_files(reference)
    made |= stdouts | {'examples/class/' + name: content for name, content in sheets.items()} | {'examples/class/expected.txt': printout(CLASS, reference)}
    made |= {'crates/mark/data/' + name: content for name, content in sheets.items() if name.endswith('.bin')}
    for parent, cases in (('examples', EXAMPLES), ('crates/test_bench/data', CASES)):
        folders |= {'%s/%s' % (parent, name): files for name, files in cases.items()}
        made |= {'%s/%s/expected.txt' % (parent, name): printed[name] for name in cases}
    groups = {'examples/' + name: files for name, files in GROUPS.items()} | {'crates/run_group/cases/' + name: files for name, files in GROUP_CASES.items()}
    made |= {folder + '/expected.txt': group_printout(files, reference) for folder, files in groups.items()}
    made |= {'crates/run_group/stdout': made['examples/group_sum/expected.txt']}
    named = [(folder, zip(NAMES, files)) for folder, files in folders.items()]
    named += [(folder, zip(GROUP_NAMES, files)) for folder, files in groups.items()]
    named += [('crates/run_group/data', zip(GROUP_NAMES, GROUPS['group_sum']))]
    for folder, files in named:
        made |= {'%s/%s' % (folder, file): content for file, content in files if content is not None}
    return {os.path.join(ROOT, path): content for path, content in made.items()}


def strangers(made):
    """the files that are not made here, in the folders of those that are"""
    folders = {os.path.dirname(path) for path in made if not path.endswith('stdout')}
    stored = (os.path.join(folder, file) for folder in folders if os.path.isdir(folder) for file in os.listdir(folder))
    return [path for path in stored if path not in made]


def main(arguments):
    check = arguments[:1] == ['--check']
    if len(arguments) != 1 + check:
        case_files.usage(__doc__)
    made = contents(case_files.executable(arguments[-1], __doc__))
    for path in strangers(made):
        if check:
            sys.exit('%s: not made here' % os.path.relpath(path, ROOT))
        os.remove(path)
    for path, content in made.items():
        if check:
            case_files.check_stored(path, content)
        else:
            os.makedirs(os.path.dirname(path), exist_ok=True)
            with open(path, 'wb') as f:
                f.write(content)
    print('%d files, %s' % (len(made), 'as made here' if check else 'written'))


main(sys.argv[1:])
