#!/usr/bin/env python3
"""Makes crates/test_cases/data/vector_ops.bin: a kernel for each vector instruction of the table in each of its forms,
and one for each of them masked.

A kernel goes through rounds of operands in data memory: it loads them, does the instruction over 32 lanes and stores
the result behind them. The expected data comes from QEMU, which runs the same instruction word over the same data in
an RVV program (32 elements of 32 bits). Two meanings are Ventus's own, and QEMU's result is turned into them by
standard instructions: a compare's mask bits into words 0 and 1, and vmv.s.x's element 0 into all elements. For
vmv.x.s, which is refused where lanes differ, the operand is the same in all lanes. Of a masked instruction, v0's words
and the destination's old ones are loaded too; QEMU's mask bits are made of the words' bit 0, it leaves lanes that are
not written as they were, and of a compare's mask bits it makes words in the written lanes alone. The file is written
only if the reference's answers are the lines made from QEMU's data.

usage: vector_ops.py CASES_PROGRAM     writes the file; the program is the reference's `cases`
                                       needs qemu-user and binutils-riscv64-unknown-elf
       vector_ops.py --check           says whether the stored file is what is made here; needs neither
"""
import random, sys

import case_files as cf

EDGES = [0, 1, 2, 31, 0x7FFFFFFF, 0x80000000, 0xFFFFFFFE, 0xFFFFFFFF]
SCALARS = EDGES + [7, 32, 33, 0xFFFFFFE1, 0x12345678, 0x87654321]
ROW = 4 * cf.LANES
# where a result goes
UNWRITTEN = b'\xa5' * ROW
CPU = 'rv32,v=true,vlen=%d,vext_spec=v1.0' % (32 * cf.LANES)

# ---- operands


def edges_and_random(rng):
    return EDGES + [rng.getrandbits(32) for _ in range(cf.LANES - len(EDGES))]


def vector_rounds(rng):
    """all pairs of edges; shifts by 0 to 31; random words, then small divisors of either sign"""
    pairs = [(a, b) for a in EDGES for b in EDGES]
    for half in (pairs[:cf.LANES], pairs[cf.LANES:]):
        yield [a for a, _ in half], [b for _, b in half]
    yield [rng.getrandbits(32) for _ in range(cf.LANES)], list(range(cf.LANES))
    yield edges_and_random(rng), [rng.getrandbits(32) for _ in range(cf.LANES)]
    yield [rng.getrandbits(32) for _ in range(cf.LANES)], [rng.randrange(-64, 64) & 0xFFFFFFFF for _ in range(cf.LANES)]


def rounds_of(name, rng):
    """the first operand in all lanes, the words after it in data memory, the immediate"""
    fields = cf.VECTOR[name][1].split()
    if name == 'vmv.x.s':
        return [([value] * cf.LANES, [], 0) for value in SCALARS]
    if 'v1' in fields:
        return [(a, b, 0) for a, b in vector_rounds(rng)]
    if 'x1' in fields:
        return [(edges_and_random(rng), [value], 0) for value in SCALARS]
    if 'signed' in fields or 'unsigned' in fields:
        first = -16 if 'signed' in fields else 0
        return [(edges_and_random(rng), [], first + at) for at in range(32)]
    return [(edges_and_random(rng), [], 0)]


# ---- programs


def instruction(name, imm):
    """over v2 and v3, x7 or the immediate into v4, a compare into v0, where RVV's vmerge looks for its mask"""
    result = 'v0' if name.startswith('vms') else 'v4'
    operands = {'vd': result, 'v2': 'v2', 'v1': 'v3', 'x1': 'x7', 'xd': 'x7', 'signed': imm, 'unsigned': imm}
    text = '%s %s' % (name, ','.join(str(operands[f]) for f in cf.VECTOR[name][1].split()))
    return ([text, 'vmv.v.x v4,x7'] if name == 'vmv.x.s' else [text]), result


def each_round(name, rounds, second):
    """the load of what follows the first operand (nothing, a scalar, or lanes by the given text), the instruction,
    its result's register, and where in the round's memory the result goes"""
    loads = {0: [], 1: ['lw x7,%d(x10)' % ROW], cf.LANES: second}
    for _, rest, imm in rounds:
        yield loads[len(rest)], *instruction(name, imm), ROW + 4 * len(rest)


def bench_kernel(name, rounds):
    texts = ['vid.v v1', 'vsll.vi v1,v1,2', *cf.load_immediate('x10', cf.DATA), 'vadd.vx v1,v1,x10']
    for load, body, result, after in each_round(name, rounds, ['vlw12 v3,%d(v1)' % ROW]):
        texts += ['vlw12 v2,0(v1)', *load, *body, 'vsw12 %s,%d(v1)' % (result, after)]
        texts += ['addi x11,x0,%d' % (after + ROW), 'vadd.vx v1,v1,x11', 'addi x10,x10,%d' % (after + ROW)]
    return texts + ['endprg']


def qemu_program(name, rounds, size):
    """the same over RVV's loads and stores; at the end it writes out data memory"""
    texts = qemu_begin()
    for load, body, result, after in each_round(name, rounds, ['addi x11,x10,%d' % ROW, 'vle32.v v3,(x11)']):
        if name.startswith('vms'):
            body, result = [*body, 'vmv.v.i v4,0', 'vmerge.vim v4,v4,1,v0'], 'v4'
        if name == 'vmv.s.x':
            body, result = [*body, 'vrgather.vi v5,v4,0'], 'v5'
        texts += ['vle32.v v2,(x10)', *load, *body]
        texts += ['addi x11,x10,%d' % after, 'vse32.v %s,(x11)' % result, 'addi x10,x10,%d' % (after + ROW)]
    return texts + qemu_end(size)


def qemu_begin():
    return [*cf.load_immediate('x6', cf.LANES), 'vsetvli x5,x6,e32,m1,tu,mu', *cf.load_immediate('x10', cf.DATA)]


def qemu_end(size):
    texts = []
    for register, value in (('x10', 1), ('x11', cf.DATA), ('x12', size), ('x17', 64)):
        texts += cf.load_immediate(register, value)
    return texts + ['ecall', 'addi x10,x0,0', 'addi x17,x0,93', 'ecall']


def plain_case(name, rng):
    rounds = rounds_of(name, rng)
    data = b''.join(cf.packed(first + rest, '<') + UNWRITTEN for first, rest, _ in rounds)
    return name, data, bench_kernel(name, rounds), qemu_program(name, rounds, len(data))


# ---- masked instructions

# words of v0: bit 0 alone counts
MASK_WORDS = [0, 1, 2, 3, 0x80000000, 0x80000001, 0xFFFFFFFE, 0xFFFFFFFF]
MASKABLE = {name: row for name, row in cf.VECTOR.items() if not name.startswith('vmv')} | cf.MERGES


def is_compare(name):
    return name.startswith('vms')


def masks(rng):
    """v0's words, round by round: each kind in some lanes, any, and none and all with bit 0 set"""
    yield MASK_WORDS * (cf.LANES // len(MASK_WORDS))
    yield [rng.getrandbits(32) for _ in range(cf.LANES)]
    yield [rng.getrandbits(32) & ~1 for _ in range(cf.LANES)]
    yield [rng.getrandbits(32) | 1 for _ in range(cf.LANES)]


def masked_rounds(name, rng):
    """v0's words, the destination's old ones, the first operand, the words after it in data memory, the immediate"""
    fields = MASKABLE[name][1].split()
    for at, mask in enumerate(masks(rng)):
        old, first = ([rng.getrandbits(32) for _ in range(cf.LANES)] for _ in range(2))
        first = edges_and_random(rng) if at % 2 == 0 else first
        # some lanes equal, for the compares
        second = [rng.choice((word, rng.choice(EDGES), rng.getrandbits(32))) for word in first]
        rest = second if 'v1' in fields else [rng.choice(SCALARS)] if 'x1' in fields else []
        yield mask, old, first, rest, rng.randrange(32) - 16 * ('signed' in fields)


def masked_text(name, result, imm):
    operands = {'vd': result, 'v2': 'v2', 'v1': 'v3', 'x1': 'x7', 'signed': imm, 'unsigned': imm, 'v0': 'v0'}
    text = '%s %s' % (name, ','.join(str(operands[f]) for f in MASKABLE[name][1].split()))
    return text + ',v0.t' * (name not in cf.MERGES)


# where in a round's memory the rows of a masked instruction lie: v0 at its beginning
OLD, FIRST, REST = ROW, 2 * ROW, 3 * ROW


def masked_kernel(name, result, rounds):
    texts = ['vid.v v1', 'vsll.vi v1,v1,2', *cf.load_immediate('x10', cf.DATA), 'vadd.vx v1,v1,x10']
    loads = {0: [], 1: ['lw x7,%d(x10)' % REST], cf.LANES: ['vlw12 v3,%d(v1)' % REST]}
    for _, _, _, rest, imm in rounds:
        after = REST + 4 * len(rest)
        texts += ['vlw12 v0,0(v1)', 'vlw12 v4,%d(v1)' % OLD, 'vlw12 v2,%d(v1)' % FIRST, *loads[len(rest)]]
        texts += [masked_text(name, result, imm), 'vsw12 %s,%d(v1)' % (result, after)]
        texts += ['addi x11,x0,%d' % (after + ROW), 'vadd.vx v1,v1,x11', 'addi x10,x10,%d' % (after + ROW)]
    return texts + ['endprg']


def masked_program(name, result, rounds, size):
    """v8 and v9 are v0's words and the old ones; v0 has the mask bits, and v7 keeps them"""
    texts = qemu_begin()
    loads = {0: [], 1: ['lw x7,%d(x10)' % REST], cf.LANES: ['addi x11,x10,%d' % REST, 'vle32.v v3,(x11)']}
    for _, _, _, rest, imm in rounds:
        after = REST + 4 * len(rest)
        texts += ['vle32.v v8,(x10)', 'addi x11,x10,%d' % OLD, 'vle32.v v9,(x11)', 'addi x11,x10,%d' % FIRST, 'vle32.v v2,(x11)']
        texts += [*loads[len(rest)], 'vand.vi v10,v8,1', 'vmsne.vi v0,v10,0', 'vmv.v.v v7,v0', 'vmv.v.v v4,v9']
        texts.append(masked_text(name, result, imm))
        if is_compare(name):
            before = 'v8' if result == 'v0' else 'v9'
            texts += ['vmv.v.v v0,%s' % result, 'vmv.v.i v6,0', 'vmerge.vim v6,v6,1,v0', 'vmv.v.v v0,v7', 'vmerge.vvm v4,%s,v6,v0' % before]
        texts += ['addi x11,x10,%d' % after, 'vse32.v v4,(x11)', 'addi x10,x10,%d' % (after + ROW)]
    return texts + qemu_end(size)


def masked_case(name, result, rng):
    rounds = list(masked_rounds(name, rng))
    data = b''.join(cf.packed(mask + old + first + rest, '<') + UNWRITTEN for mask, old, first, rest, _ in rounds)
    return 'masked ' + name, data, masked_kernel(name, result, rounds), masked_program(name, result, rounds, len(data))


# ---- all of them


def hold_against_qemu(cases):
    """the expected line of each case, from the data that QEMU leaves"""
    cf.print_versions()
    texts, lines = [], []
    for number, (name, data, ours, theirs) in enumerate(cases):
        texts += ours + theirs
        done = cf.run_qemu(cf.words_of(theirs), data, '-cpu', CPU)
        assert done.returncode == 0 and len(done.stdout) == len(data), (name, done.stderr)
        lines.append(cf.answer_line(number, len(ours), ours, cf.digest(done.stdout)))
    print('encoder: %d different instructions as binutils reads them' % cf.check_encoder(texts))
    return lines


def main(arguments):
    if len(arguments) != 1:
        cf.usage(__doc__)
    program = None if arguments[0] == '--check' else cf.executable(arguments[0], __doc__)
    rng = random.Random(32)
    cases = [plain_case(name, rng) for name in cf.VECTOR]
    cases += [masked_case(name, 'v4', rng) for name in MASKABLE]
    cases += [masked_case(name, 'v0', rng) for name in MASKABLE if is_compare(name)]
    records = [cf.record(cf.DATA_ONLY, cf.words_of(ours), data) for _, data, ours, _ in cases]
    if program:
        cf.write_case_file('vector_ops.bin', records, hold_against_qemu(cases), program)
    else:
        cf.check_case_file('vector_ops.bin', records)


main(sys.argv[1:])
