#!/usr/bin/env python3
"""Makes crates/test_decoder/stdin (words) and crates/test_decoder/stdout (what each is).

Scalar and standard vector words are judged by GNU binutils' disassembly
(riscv64-unknown-elf-objdump -M no-aliases,numeric). Ventus's own words, and
where the rules (docs/DEFINITION.md) leave out or change what binutils knows, are judged by the
small tables below, written from the rules alone. Nothing here comes from
the decoder under test.

usage: decoder_cases.py CRATE_FOLDER             writes both; needs binutils-riscv64-unknown-elf
       decoder_cases.py --check CRATE_FOLDER     says whether the words are what is made here, and
                                                 if binutils is installed what each word is too
"""
import collections, os, random, re, shutil, sys

import case_files

OPS = ['add', 'sub', 'rsub', 'sll', 'srl', 'sra', 'slt', 'sltu', 'and', 'or', 'xor', 'mul', 'mulh', 'mulhsu', 'mulhu',
       'div', 'divu', 'rem', 'remu', 'min', 'minu', 'max', 'maxu', 'seq', 'sne', 'sle', 'sleu', 'sgt', 'sgtu', 'move']
CONDS = ['eq', 'ne', 'lt', 'ge', 'ltu', 'geu']
LOADS = ['b', 'h', 'w', 'bu', 'hu']
STORES = ['b', 'h', 'w']
CSRS = ['rw', 'rs', 'rc']
VENTUS = (0b1011011, 0b0001011, 0b1111011, 0b0101011)
VECTOR_OPCODE = 0b1010111
# the table's funct6, and some beside them
NEAR = [*range(8), 9, 10, 11, 16, 20, *range(23, 42)]
# moves, vmerge and vid: funct6, and its funct3
MOVES = ((0b010111, (0, 3, 4)), (0b010000, (2, 6)), (0b010100, (2,)))


def line(kind, op=0, a=0, b=0, c=0, imm=0):
    return '%s %02x %02x %02x %02x %06x\n' % (kind, op, a, b, c, imm)


REFUSED = line('--')


def field(w, lo, n):
    return (w >> lo) & ((1 << n) - 1)


# ---- Ventus's own words, from the rules

def ventus(w):
    op, rd, f3 = field(w, 0, 7), field(w, 7, 5), field(w, 12, 3)
    rs1, rs2, f7 = field(w, 15, 5), field(w, 20, 5), field(w, 25, 7)
    imm_i = field(w, 20, 12)
    imm_s = f7 << 5 | rd
    if op == 0b1011011:
        if w == 0x0000205B:
            return line('jn')
        if f3 == 0b011:
            return line('rp', 0, rd, rs1, 0, imm_i)
        if f3 in (0b000, 0b001, 0b100, 0b101, 0b110, 0b111):
            off = field(w, 31, 1) << 12 | field(w, 7, 1) << 11 | field(w, 25, 6) << 5 | field(w, 8, 4) << 1
            return line('vb', {0: 0, 1: 1, 4: 2, 5: 3, 6: 4, 7: 5}[f3], 0, rs1, rs2, off)
    elif op == 0b0001011:
        if w == 0x0000400B:
            return line('ep')
        if f3 == 0b100 and f7 == 0b0000010 and rs2 == 0 and rd == 0:
            return line('ba', 0, 0, rs1)
        if f3 in (0b010, 0b011) and rs1 == 0 and rd == 0:
            return line('rx' if f3 == 0b010 else 'ri', imm=imm_i)
    elif op == 0b1111011 or (op == 0b0101011 and field(w, 31, 1) == 0):
        k = 'v' if op == 0b1111011 else 'p'
        loads = {0b000: 'b', 0b001: 'h', 0b010: 'w', 0b100: 'bu', 0b101: 'hu'}
        stores = {0b111: 'b', 0b011: 'h', 0b110: 'w'}
        if f3 in loads:
            return line(k + 'l', LOADS.index(loads[f3]), rd, rs1, 0, imm_i)
        return line(k + 's', STORES.index(stores[f3]), 0, rs1, rs2, imm_s)
    return REFUSED


# ---- what binutils says, turned into a line

def num(s):
    return int(s, 0)


def reg(s, kind):
    assert re.fullmatch(kind + r'\d+', s), s
    return int(s[1:])


def mem(s):
    m = re.fullmatch(r'(-?\d+)\(x(\d+)\)', s)
    return int(m.group(1)), int(m.group(2))


OPREG = set(OPS[:19]) - {'rsub'}
OPIMM = {'addi', 'slti', 'sltiu', 'xori', 'ori', 'andi', 'slli', 'srli', 'srai'}
# the rules' vector ops under the manual's names, with their forms
VECTOR = {}
for names, forms in (('add and or xor sll srl sra', 'vv vx vi'), ('sub', 'vv vx'), ('rsub', 'vx vi'),
                     ('minu min maxu max', 'vv vx'), ('mulhu mul mulhsu mulh divu div remu rem', 'vv vx')):
    for n in names.split():
        for f in forms.split():
            VECTOR['v%s.%s' % (n, f)] = (n, f)
for names, forms in (('seq sne sleu sle', 'vv vx vi'), ('sltu slt', 'vv vx'), ('sgtu sgt', 'vx vi')):
    for n in names.split():
        for f in forms.split():
            VECTOR['vm%s.%s' % (n, f)] = (n, f)
UNSIGNED = {'vsll.vi', 'vsrl.vi', 'vsra.vi'}


def source(form, text):
    """the source operand that makes the form: its field, and 0 VV, 1 VX, 2 VI"""
    if form == 'vv':
        return reg(text, 'v'), 0
    if form == 'vx':
        return reg(text, 'x'), 1
    return num(text) & 31, 2


# each of these gives a line, or nothing if the name is not one of its own

def jump(name, args, pc):
    if name == 'jal':
        return line('jl', 0, reg(args[0], 'x'), 0, 0, (int(args[1], 16) - pc) & 0x1FFFFF)
    if name == 'jalr':
        off, base = mem(args[1]) if '(' in args[1] else (0, reg(args[1], 'x'))
        return line('jr', 0, reg(args[0], 'x'), base, 0, off & 0xFFF)
    if name in ('b' + c for c in CONDS):
        return line('br', CONDS.index(name[1:]), 0, reg(args[0], 'x'), reg(args[1], 'x'), (int(args[2], 16) - pc) & 0x1FFF)


def access(name, args):
    if name in ('l' + o for o in LOADS):
        off, base = mem(args[1])
        return line('ld', LOADS.index(name[1:]), reg(args[0], 'x'), base, 0, off & 0xFFF)
    if name in ('s' + o for o in STORES):
        off, base = mem(args[1])
        return line('st', STORES.index(name[1:]), 0, base, reg(args[0], 'x'), off & 0xFFF)


def operation(name, args):
    if name in ('lui', 'auipc'):
        return line('lu' if name == 'lui' else 'au', 0, reg(args[0], 'x'), 0, 0, num(args[1]) & 0xFFFFF)
    if name in OPIMM:
        o = 'sltu' if name == 'sltiu' else name[:-1]
        if o in ('sll', 'srl', 'sra') and num(args[2]) > 31:
            return REFUSED                                          # RV32I: binutils shows RV64's sixth bit here too
        return line('oi', OPS.index(o), reg(args[0], 'x'), reg(args[1], 'x'), 0, num(args[2]) & 0xFFF)
    if name in OPREG:
        return line('or', OPS.index(name), reg(args[0], 'x'), reg(args[1], 'x'), reg(args[2], 'x'))


def csr(name, args, w):
    if re.fullmatch(r'csrr[wsc]i?', name):
        immediate = name.endswith('i')
        src = num(args[2]) if immediate else reg(args[2], 'x')
        # the CSR's number from the word: binutils prints some by name
        return line('ci' if immediate else 'cr', CSRS.index(name[3:5]), reg(args[0], 'x'), src, 0, field(w, 20, 12))


def vector(name, args):
    masked = args[-1:] == ['v0.t']
    if name in VECTOR:
        op, form = VECTOR[name]
        src, kind = source(form, args[2])
        return line('me' if masked else 've', OPS.index(op), reg(args[0], 'v'), src, reg(args[1], 'v'), kind)
    if name in ('vmerge.vvm', 'vmerge.vxm', 'vmerge.vim'):
        assert args[3] == 'v0', args
        src, kind = source(name[-3:-1], args[2])
        return line('mg', 0, reg(args[0], 'v'), src, reg(args[1], 'v'), kind)
    if name == 'vid.v':
        return line('md' if masked else 'id', 0, reg(args[0], 'v'))
    if masked:
        return REFUSED                                              # of what the table lacks
    if name in ('vmv.v.v', 'vmv.v.x', 'vmv.v.i'):
        src, kind = source('v' + name[-1], args[1])
        return line('vm', 0, reg(args[0], 'v'), src, 0, kind)
    if name == 'vmv.x.s':
        return line('xs', 0, reg(args[0], 'x'), 0, reg(args[1], 'v'))
    if name == 'vmv.s.x':
        return line('sx', 0, reg(args[0], 'v'), reg(args[1], 'x'))


def standard(w, pc, text):
    """the line of a word at a PC, of which binutils has the text"""
    name, *rest = text.split(None, 1)
    args = re.sub('[#<].*', '', rest[0]).strip().split(',') if rest else []
    return jump(name, args, pc) or access(name, args) or operation(name, args) or csr(name, args, w) or vector(name, args) or REFUSED


def fence(w):
    # FENCE: funct3 000, every other field ignored; binutils refuses some of them
    return line('fe', 0, field(w, 7, 5), field(w, 15, 5), 0, field(w, 20, 12)) if field(w, 12, 3) == 0 else REFUSED


def masked_into_v0(w):
    return field(w, 0, 7) == VECTOR_OPCODE and field(w, 25, 1) == 0 and field(w, 7, 5) == 0


def into_v0(judged):
    """the line of a word that was asked about with the destination v1"""
    kind, op, a, rest = judged.split(' ', 3)
    return judged if judged == REFUSED else ' '.join((kind, op, '00', rest))


def expected(words):
    res = [None] * len(words)
    ask = []
    for i, w in enumerate(words):
        op = field(w, 0, 7)
        if op in VENTUS:
            res[i] = ventus(w)
        elif op == 0b0001111:
            res[i] = fence(w)
        elif w & 3 != 3 or w & 0x1F == 0x1F:
            res[i] = REFUSED                                        # the manual's shorter and longer formats
        else:
            ask.append(i)
    # binutils, as the manual, has no masked word with the destination v0, which ours are with a prefix: v1 stands for it
    asked = [words[i] | masked_into_v0(words[i]) << 7 for i in ask]
    for at, (i, w, text) in enumerate(zip(ask, asked, case_files.disassemble(asked))):
        judged = standard(w, 4 * at, text)
        res[i] = into_v0(judged) if w != words[i] else judged
    return res


# ---- the words

def words(rng):
    def r(n):
        return rng.getrandbits(n)
    out = [0x0000205B, 0x0000400B, 0x0102B05B, 0x0020885B, 0, 0xFFFFFFFF, 0x0400400B, 0x0000000B, 0x00000073, 0x00100073]
    known = [0b0110111, 0b0010111, 0b1101111, 0b1100111, 0b1100011, 0b0000011, 0b0100011, 0b0010011, 0b0110011, 0b0001111,
             0b1110011, 0b1010111, 0b1011011, 0b0001011, 0b1111011, 0b0101011]
    for op in range(128):                                           # every opcode, the rest at random
        out += [r(25) << 7 | op for _ in range(12)]
    for op in known:
        out += [r(25) << 7 | op for _ in range(220)]
    for _ in range(1600):                                           # OP and OP-IMM's shifts, near funct7's codes
        f7 = rng.choice([0, 0, 1, 1, 32, 32, 2, 33, 48, 16, 64, r(7)])
        out.append(f7 << 25 | r(18) << 7 | rng.choice([0b0110011, 0b0010011]))
    for f6 in range(64):                                            # the vector table: each funct6, funct3 and vm
        for f3 in range(8):
            for vm in (1, 1, 1, 1, 0):
                out.append(f6 << 26 | vm << 25 | r(5) << 20 | r(5) << 15 | f3 << 12 | r(5) << 7 | 0b1010111)
    for _ in range(4000):                                           # more of the table's funct6, unmasked
        out.append(rng.choice(NEAR) << 26 | 1 << 25 | r(10) << 15 | rng.choice([0, 2, 3, 4, 6]) << 12 | r(5) << 7 | 0b1010111)
    for f6, f3s in MOVES:                                           # fields fixed and not
        for _ in range(400):
            vs2 = rng.choice([0, 0, 0, r(5)])
            vs1 = rng.choice([0, 0b10001, 0b10000, r(5)])
            out.append(f6 << 26 | rng.choice([1, 1, 1, 0]) << 25 | vs2 << 20 | vs1 << 15 | rng.choice(f3s) << 12 | r(5) << 7 | 0b1010111)
    for w in (0x0000205B, 0x0000400B, 0x0400400B):                  # JOIN, ENDPRG, BARRIER, and each with a bit or two changed
        for i in range(7, 32):
            out.append(w ^ 1 << i)
            for j in range(i + 1, 32):
                out.append(w ^ 1 << i ^ 1 << j)
    for _ in range(400):
        out.append(rng.choice([0, 2, 4, r(7)]) << 25 | rng.choice([0, r(5)]) << 20 | r(5) << 15 | rng.choice([4, 4, 4, r(3)]) << 12
                   | rng.choice([0, 0, r(5)]) << 7 | 0b0001011)
    for op in (0b1011011, 0b1111011, 0b0101011, 0b1100011, 0b0000011, 0b0100011, 0b1110011, 0b0001111, 0b1100111):
        for f3 in range(8):
            out += [r(17) << 15 | f3 << 12 | r(5) << 7 | op for _ in range(60)]
    while len(out) < 24000:
        out.append(r(25) << 7 | rng.choice(known))
    return out + prefixes(rng) + masked(rng)


def prefixes(rng):
    """REGEXT and REGEXTI: each bit of the immediate alone and left out, any immediates, and one or two other bits changed"""
    bits = [1 << i for i in range(12)]
    out = []
    for w in (0x0000200B, 0x0000300B):
        out += [w ^ imm << 20 for imm in (0, 0xFFF, *bits, *(0xFFF ^ bit for bit in bits), *(rng.getrandbits(12) for _ in range(200)))]
        for i in range(7, 20):
            out += [w ^ rng.getrandbits(12) << 20 ^ 1 << i ^ other for other in (0, *(1 << j for j in range(i + 1, 20)))]
    return out


def masked(rng):
    """vm = 0: each funct6 and funct3, more of the table's, and moves, vmerge and vid with fields fixed and not; often into v0"""
    r = rng.getrandbits
    codes = [(f6, f3) for f6 in range(64) for f3 in range(8)] * 4
    codes += [(rng.choice(NEAR), rng.choice([0, 2, 3, 4, 6])) for _ in range(3000)]
    out = [f6 << 26 | r(10) << 15 | f3 << 12 | rng.choice([0, r(5), r(5), r(5)]) << 7 | VECTOR_OPCODE for f6, f3 in codes]
    for f6, f3s in MOVES:
        for _ in range(200):
            fields = rng.choice([0, 0, r(5)]) << 20 | rng.choice([0, 0b10001, 0b10000, r(5)]) << 15
            out.append(f6 << 26 | fields | rng.choice(f3s) << 12 | r(5) << 7 | VECTOR_OPCODE)
    return out


def write(path, content):
    with open(path, 'wb') as f:
        f.write(content)


def main(arguments):
    check = arguments[:1] == ['--check']
    if len(arguments) != 1 + check:
        case_files.usage(__doc__)
    if not os.path.isdir(arguments[-1]):
        case_files.usage(__doc__, '%s: not a folder' % arguments[-1])
    tools = (case_files.AS, case_files.OBJDUMP)
    if not check:
        case_files.need_tools(*tools)
    made = words(random.Random(20250321))
    files = {'stdin': case_files.packed(made, '<')}
    if all(map(shutil.which, tools)):
        lines = expected(made)
        files['stdout'] = ''.join(lines).encode()
        print(len(made), 'words', sorted(collections.Counter(l[:2] for l in lines).items()))
    for name, content in files.items():
        (case_files.check_stored if check else write)(os.path.join(arguments[-1], name), content)
    print(' and '.join(files), 'as made here' if check else 'written')


main(sys.argv[1:])
