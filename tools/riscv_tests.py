#!/usr/bin/env python3
"""Makes crates/test_cases/data/riscv_tests.bin: a kernel for each program of tools/riscv_tests.txt, which checks itself.

Register x3 has the number of the test that runs; a wrong result ends the kernel with it, and 1 says that all passed.
Before the file is written every kernel is run by QEMU as a Linux program, at the same addresses and with the same
words but for ENDPRG, in whose place it exits with x3: as it stands, and once more for each test with one bit of the
expected result flipped. It is written only if QEMU saw the pass, each failure's number, and the reference's steps.

usage: riscv_tests.py CASES_PROGRAM     writes the file; the program is the reference's `cases`
                                        needs qemu-user and binutils-riscv64-unknown-elf
       riscv_tests.py --check           says whether the stored file is what is made here; needs neither
"""
import os, random, re, sys

import case_files as cf

FIGURES = os.path.join(cf.ROOT, 'tools', 'riscv_tests.txt')
EXIT = cf.words_of(('addi x10,x3,0', 'addi x17,x0,93', 'ecall'))
ENDPRG = cf.word('endprg')
NOP = 'addi x0,x0,0'
# nops after the first and after the second load of a pair
PAIRS = ((0, 0), (0, 1), (0, 2), (1, 0), (1, 1), (2, 0))
TURNS = {'ab': 6, 'ba': 6, 'after': 3, 'before': 3}

# ---- the figures


def figure(text):
    if text.isalpha():
        return text
    number, _, shift = text.partition('<<')
    return int(number, 0) << int(shift or 0)


def tests_of(line):
    """the tests of a line: number, variant, which of the variant's turns, figures"""
    number, variant, *rest = line.split(None, 2)
    groups = [[figure(f) for f in group.split()] for group in ''.join(rest).split('|')]
    return [(int(number) + turn, variant, turn, groups[turn % len(groups)]) for turn in range(TURNS.get(variant, len(groups)))]


def read_programs():
    """name: bytes of a data item, data, tests"""
    programs = {}
    with open(FIGURES) as f:
        for line in filter(None, (l.partition('#')[0].strip() for l in f)):
            if line.startswith('program'):
                name = line.split()[1]
                programs[name] = (0, b'', [])
            elif line.startswith('data'):
                size, *items = (figure(f) for f in line.split()[1:])
                programs[name] = (size, b''.join(i.to_bytes(size, 'little') for i in items), [])
            else:
                programs[name][2].extend(tests_of(line))
    return programs


# ---- a kernel


class Kernel:
    """the text so far; `spoiled` is the place of a test and a bit of its result to expect wrongly"""

    def __init__(self, size, spoiled):
        self.texts, self.fails, self.checks, self.size, self.spoiled = [], [], 0, size, spoiled

    def add(self, *texts):
        self.texts += texts

    def here(self):
        return cf.CODE + 4 * len(self.texts)

    def load(self, register, value, nops=0):
        self.add(*cf.load_immediate(register, value), *[NOP] * nops)

    def place(self, number):
        return cf.DATA + self.size * (number - 1)

    def fail(self):
        self.fails.append(len(self.texts))
        self.add('to the end')

    def check(self, register, expected):
        if self.spoiled and self.spoiled[0] == self.checks:
            expected ^= 1 << self.spoiled[1]
        self.checks += 1
        self.load('x28', expected)
        self.add('beq %s,x28,8' % register)
        self.fail()

    def finish(self):
        self.load('x3', 1)
        for at in self.fails:
            self.texts[at] = 'jal x0,%d' % (4 * (len(self.texts) - at))
        self.add('endprg')
        return self.texts


# ---- the tests: each adds its instructions and says which register must have which value

# a variant's figures, and its registers: result, first and second operand
SHAPES = {'op': ('rab', 'x7', 'x5', 'x6'), 'src1': ('rab', 'x5', 'x5', 'x6'), 'src2': ('rab', 'x6', 'x5', 'x6'), 'both': ('ra', 'x5', 'x5', 'x5'),
          'zero1': ('rb', 'x7', 'x0', 'x6'), 'zero2': ('ra', 'x7', 'x5', 'x0'), 'zeros': ('r', 'x7', 'x0', 'x0'), 'zerod': ('ab', 'x0', 'x5', 'x6')}


def gaps(variant, turn):
    return PAIRS[turn] if variant in ('ab', 'ba') else (turn, 0) if variant == 'before' else (0, 0)


def move_after_nops(k, variant, turn):
    """the register that has x7's value: for variant `after` another one, to which it is moved after some nops"""
    if variant != 'after':
        return 'x7'
    k.add(*[NOP] * turn, 'addi x8,x7,0')
    return 'x8'


def arithmetic(k, name, variant, turn, figures):
    names, result, first, second = SHAPES.get(variant, SHAPES['op'])
    values = dict(zip(names, figures))
    if cf.TABLE[name][1] != 'xd x1 x2':
        second = values.pop('b')
        if cf.TABLE[name][1].endswith(' i'):
            second = (second & 0xFFF ^ 0x800) - 0x800
    for operand, nops in zip(sorted(values.keys() - {'r'}, reverse=variant == 'ba'), gaps(variant, turn)):
        k.load({'a': first, 'b': second}[operand], values[operand], nops)
    k.add('%s %s,%s,%s' % (name, result, first, second))
    return result if result != 'x7' else move_after_nops(k, variant, turn), values.get('r', 0)


def load_upper(k, name, variant, turn, figures):
    if variant == 'zerod':
        k.add('lui x0,%d' % figures[0])
        return 'x0', 0
    result, value, shift = figures
    k.add('lui x7,%d' % value, 'srai x7,x7,%d' % shift)
    return 'x7', result


def add_upper_to_pc(k, name, variant, turn, figures):
    """AUIPC and ADDI make an address at a distance from the word after JAL, which JAL's link gives too"""
    distance = figures[0] + 12
    low = (distance & 0xFFF ^ 0x800) - 0x800
    k.add('auipc x7,%d' % (distance - low >> 12 & 0xFFFFF), 'addi x7,x7,%d' % low, 'jal x6,4', 'sub x7,x7,x6')
    return 'x7', figures[0]


def jump_over_additions(k, figures, *jump):
    """x7 is 1 and what is left of six additions when the jump has passed over some"""
    k.load('x7', 1)
    k.add(*jump, *['addi x7,x7,1'] * 6)
    return 'x7', figures[0]


def branch(k, name, variant, turn, figures):
    """once forward and once back: x7 is 3 if both are taken, 0 if neither is"""
    if variant == 'slot':
        first, second = ({'zero': 'x0', 'one': 'x7'}[f] for f in figures[1:])
        return jump_over_additions(k, figures, '%s %s,%s,20' % (name, first, second))
    k.load('x7', 0)
    for register, value, nops in zip(('x5', 'x6'), figures, gaps(variant, turn)):
        k.load(register, value, nops)
    k.add(name + ' x5,x6,16', 'jal x0,16', 'addi x7,x7,1', 'jal x0,12', 'addi x7,x7,2', name + ' x5,x6,-12')
    return 'x7', 3 if variant == 'taken' else 0


def jump(k, name, variant, turn, figures):
    if variant == 'slot':
        return jump_over_additions(k, figures, 'jal x0,20')
    k.add('jal x6,16')
    link = k.here()
    k.add(NOP, NOP)
    k.fail()
    return 'x6', link


def jump_register(k, name, variant, turn, figures):
    """the target's address by AUIPC and ADDI; a slot's jump goes to the word before it"""
    if variant == 'slot':
        return jump_over_additions(k, figures, 'auipc x5,0', 'addi x5,x5,28', 'jalr x0,-4(x5)')
    result = 'x5' if variant == 'same' else 'x6'
    nops = gaps(variant, turn)[0]
    k.add('auipc x5,0', 'addi x5,x5,%d' % (16 + 4 * nops), *[NOP] * nops, 'jalr %s,0(x5)' % result)
    link = k.here()
    k.fail()
    return result, link


def loading(k, name, variant, turn, figures):
    """result, offset, place; base: what is added to the place's address too; over: another value over the loaded one"""
    if variant == 'over':
        k.load('x5', k.place(1))
        k.add(name + ' x7,0(x5)', *[NOP] * turn)
        k.load('x7', figures[0])
        return 'x7', figures[0]
    result, *moved, offset, place = figures
    k.load('x5', k.place(place), gaps(variant, turn)[0])
    k.add(*('addi x5,x5,%d' % m for m in moved), '%s x7,%d(x5)' % (name, offset))
    return move_after_nops(k, variant, turn), result


def storing(k, name, variant, turn, figures):
    """result, offset, place, the load that reads it; base: value, what is added to the place's address, the place read"""
    if variant == 'base':
        result, value, moved, offset, place, read, load = figures
        k.load('x5', k.place(place))
        k.load('x6', value)
        k.add('addi x5,x5,%d' % moved, '%s x6,%d(x5)' % (name, offset))
        k.load('x5', k.place(read))
        k.add(load + ' x7,0(x5)')
        return 'x7', result
    result, offset, place, load = figures
    loads = [('x6', result), ('x5', k.place(place))]
    for (register, value), nops in zip(loads if variant == 'ab' else loads[::-1], gaps(variant, turn)):
        k.load(register, value, nops)
    k.add('%s x6,%d(x5)' % (name, offset), '%s x7,%d(x5)' % (load, offset))
    return 'x7', result


KINDS = {'lui': load_upper, 'auipc': add_upper_to_pc, 'jal': jump, 'jalr': jump_register, **{'b' + c: branch for c in cf.BRANCHES},
         **{'l' + s: loading for s in cf.LOADS}, **{'s' + s: storing for s in cf.STORES}}


def kernel(name, size, tests, spoiled=None):
    k = Kernel(size, spoiled)
    for number, variant, turn, figures in tests:
        k.load('x3', number)
        k.check(*KINDS.get(name, arithmetic)(k, name, variant, turn, figures))
    return k.finish()


# ---- QEMU


def run_kernel(words, data, *options):
    assert words[-1] == ENDPRG and ENDPRG not in words[:-1]
    return cf.run_qemu(words[:-1] + EXIT, data, '-cpu', 'rv32', *options)


def count_steps(words, data):
    """an instruction at a time, each one's address in the trace; ENDPRG is the last step"""
    done = run_kernel(words, data, '-singlestep', '-d', 'exec,nochain')
    trace = re.findall(r'^Trace .*?\[\w+/(\w+)/', done.stderr.decode(), re.M)
    return 1 + sum(int(pc, 16) < cf.CODE + 4 * (len(words) - 1) for pc in trace)


def hold_against_qemu(programs, kernels):
    """the expected line of each kernel, if QEMU passes it and fails each of its spoiled ones by the right number"""
    cf.print_versions()
    print('encoder: %d different instructions as binutils reads them' % cf.check_encoder(t for texts in kernels.values() for t in texts))
    rng = random.Random(9)
    lines, spoiled = [], 0
    for number, (name, (size, data, tests)) in enumerate(programs.items()):
        words = cf.words_of(kernels[name])
        if run_kernel(words, data).returncode != 1:
            sys.exit('%s: QEMU does not pass it, nothing written' % name)
        lines.append(cf.answer_line(number, count_steps(words, data), words, 1))
        for at, test in enumerate(tests):
            wrong = cf.words_of(kernel(name, size, tests, (at, rng.randrange(32))))
            if run_kernel(wrong, data).returncode != test[0]:
                sys.exit('%s: QEMU does not fail spoiled test %d, nothing written' % (name, test[0]))
            spoiled += 1
    print('QEMU: %d programs pass, %d spoiled ones fail by their number' % (len(lines), spoiled))
    return lines


def main(arguments):
    if len(arguments) != 1:
        cf.usage(__doc__)
    program = None if arguments[0] == '--check' else cf.executable(arguments[0], __doc__)
    programs = read_programs()
    kernels = {name: kernel(name, size, tests) for name, (size, _, tests) in programs.items()}
    records = [cf.record(cf.CHECKS_ITSELF, cf.words_of(kernels[name]), data) for name, (_, data, _) in programs.items()]
    if program:
        cf.write_case_file('riscv_tests.bin', records, hold_against_qemu(programs, kernels), program)
    else:
        cf.check_case_file('riscv_tests.bin', records)


main(sys.argv[1:])
