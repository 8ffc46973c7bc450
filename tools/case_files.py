"""What the scripts that make stored files share: their command lines, an encoder of assembler text and binutils'
reading of its words, cards, case records (reference/CASES-FORMAT.md), runs by QEMU, and the comparison with the
reference before a file is written.

An instruction is written as binutils prints it (objdump -M no-aliases,numeric), a jump with its distance in
bytes. Ventus's own words have the names of docs/DEFINITION.md and the same way of writing; private accesses, for
which it has no name, end in .p as in the reference.
"""
import os, re, shutil, struct, subprocess, sys, tempfile

ROOT = os.path.dirname(os.path.dirname(os.path.abspath(__file__)))
DATA_FOLDER = os.path.join(ROOT, 'crates', 'test_cases', 'data')
QEMU = 'qemu-riscv32'
OBJDUMP = 'riscv64-unknown-elf-objdump'
AS = 'riscv64-unknown-elf-as'
# where a Linux user program can have its code and data
CODE, DATA = 0x10000, 0x20000
LANES = 32
VECTOR_WORDS = 256 * LANES
# the kinds of a record that are made here
CHECKS_ITSELF, DATA_ONLY = 6, 7

# ---- the command line


def usage(script, wrong=''):
    """ends the script, whose text it is given, with its usage: all that follows `usage:`"""
    sys.stderr.write(wrong and wrong + '\n')
    sys.stderr.write(script[script.index('usage:'):])
    sys.exit(2)


def executable(path, script):
    """the whole path, if it is that of an executable file"""
    if not (os.path.isfile(path) and os.access(path, os.X_OK)):
        usage(script, '%s: not an executable file' % path)
    return os.path.abspath(path)


def output_of(*command, **options):
    """what a run of the program prints; ends the script if it fails"""
    done = subprocess.run(command, capture_output=True, **options)
    if done.returncode != 0:
        sys.exit('%s fails: %s' % (' '.join(command), done.stderr.decode()))
    return done.stdout


def need_tools(*tools):
    missing = [tool for tool in tools if not shutil.which(tool)]
    if missing:
        sys.exit('not installed: ' + ', '.join(missing))


# ---- words


def within(value, low, high):
    assert low <= value < high, value
    return value


def i_field(imm):
    return (within(imm, -2048, 2048) & 0xFFF) << 20


def s_field(imm):
    imm = within(imm, -2048, 2048)
    return (imm >> 5 & 0x7F) << 25 | (imm & 0x1F) << 7


def b_field(off):
    off = within(off, -4096, 4096)
    return (off >> 12 & 1) << 31 | (off >> 5 & 0x3F) << 25 | (off >> 1 & 0xF) << 8 | (off >> 11 & 1) << 7


def j_field(off):
    off = within(off, -1 << 20, 1 << 20)
    return (off >> 20 & 1) << 31 | (off >> 1 & 0x3FF) << 21 | (off >> 11 & 1) << 20 | (off >> 12 & 0xFF) << 12


def register(letter, place):
    return lambda operand: within(int(operand.removeprefix(letter)), 0, 32) << place


# an operand of the text, and the bits that it becomes
FIELDS = {
    'xd': register('x', 7), 'x1': register('x', 15), 'x2': register('x', 20),
    'vd': register('v', 7), 'v1': register('v', 15), 'v2': register('v', 20),
    'i': i_field, 's': s_field, 'b': b_field, 'j': j_field,
    # of a private access, which leaves bit 31 zero
    'pi': lambda imm: i_field(within(imm, -1024, 1024) & 0x7FF), 'ps': lambda imm: s_field(within(imm, -1024, 1024) & 0x7FF),
    'u': lambda imm: within(imm, 0, 1 << 20) << 12,
    'amount': lambda imm: within(imm, 0, 32) << 20,
    'csr': lambda number: within(number, 0, 1 << 12) << 20,
    'signed': lambda imm: (within(imm, -16, 16) & 0x1F) << 15,
    'unsigned': lambda imm: within(imm, 0, 32) << 15,
    # of a prefix: its digits x3, x2, x1 and xd, or six bits of an immediate, x2 and xd
    **{digit: lambda n, place=place: within(n, 0, 8) << place for digit, place in (('d3', 29), ('d2', 26), ('d1', 23), ('d0', 20))},
    'high': lambda imm: within(imm, 0, 64) << 26,
}
BRANCHES = {'eq': 0, 'ne': 1, 'lt': 4, 'ge': 5, 'ltu': 6, 'geu': 7}
LOADS = {'b': 0, 'h': 1, 'w': 2, 'bu': 4, 'hu': 5}
STORES = {'b': (0, 7), 'h': (1, 3), 'w': (2, 6)}
REGISTER_OPS = [('add sll slt sltu xor srl or and', 0), ('mul mulh mulhsu mulhu div divu rem remu', 1)]
# vector ops from a funct6 on, with their forms
VECTOR_OPS = [
    (0b000000, 'vadd', 'vxi'), (0b000010, 'vsub', 'vx'), (0b000011, 'vrsub', 'xi'),
    (0b000100, 'vminu vmin vmaxu vmax', 'vx'), (0b001001, 'vand vor vxor', 'vxi'),
    (0b100101, 'vsll', 'vxu'), (0b101000, 'vsrl vsra', 'vxu'),
    (0b011000, 'vmseq vmsne', 'vxi'), (0b011010, 'vmsltu vmslt', 'vx'),
    (0b011100, 'vmsleu vmsle', 'vxi'), (0b011110, 'vmsgtu vmsgt', 'xi'),
]
VECTOR_M_OPS = [(0b100000, 'vdivu vdiv vremu vrem vmulhu vmul vmulhsu vmulh', 'vx')]
# a form: its letter in the name, its funct3, its funct3 in the M group, its operand
FORMS = {'v': ('v', 0, 2, 'v1'), 'x': ('x', 4, 6, 'x1'), 'i': ('i', 3, None, 'signed'), 'u': ('i', 3, None, 'unsigned')}
JUMPS = ('jal', *('b' + c for c in BRANCHES))


def scalar_table():
    rows = {'lui': (0x37, 'xd u'), 'auipc': (0x17, 'xd u'), 'jal': (0x6F, 'xd j'), 'jalr': (0x67, 'xd i x1'),
            'sub': (0x40000033, 'xd x1 x2'), 'sra': (0x40005033, 'xd x1 x2'), 'srai': (0x40005013, 'xd x1 amount'),
            'csrrs': (0x2073, 'xd csr x1')}
    for names, funct7 in REGISTER_OPS:
        rows |= {n: (funct7 << 25 | f3 << 12 | 0x33, 'xd x1 x2') for f3, n in enumerate(names.split())}
    for n, f3 in {'addi': 0, 'slti': 2, 'sltiu': 3, 'xori': 4, 'ori': 6, 'andi': 7}.items():
        rows[n] = (f3 << 12 | 0x13, 'xd x1 i')
    rows |= {n: (f3 << 12 | 0x13, 'xd x1 amount') for n, f3 in (('slli', 1), ('srli', 5))}
    rows |= {'b' + n: (f3 << 12 | 0x63, 'x1 x2 b') for n, f3 in BRANCHES.items()}
    rows |= {'l' + n: (f3 << 12 | 0x03, 'xd i x1') for n, f3 in LOADS.items()}
    rows |= {'s' + n: (f3 << 12 | 0x23, 'x2 s x1') for n, (f3, _) in STORES.items()}
    return rows


def ventus_table():
    rows = {'join': (0x205B, ''), 'endprg': (0x400B, ''), 'barrier': (0x0400400B, ''), 'setrpc': (0x305B, 'xd x1 i')}
    rows |= {'regext': (0x200B, 'd3 d2 d1 d0'), 'regexti': (0x300B, 'high d1 d0')}
    rows |= {'vb' + n: (f3 << 12 | 0x5B, 'v1 v2 b') for n, f3 in BRANCHES.items()}
    rows |= {'vl%s12' % n: (f3 << 12 | 0x7B, 'vd i v1') for n, f3 in LOADS.items()}
    rows |= {'vs%s12' % n: (f3 << 12 | 0x7B, 'v2 s v1') for n, (_, f3) in STORES.items()}
    rows |= {'vl%s.p' % n: (f3 << 12 | 0x2B, 'vd pi v1') for n, f3 in LOADS.items()}
    rows |= {'vs%s.p' % n: (f3 << 12 | 0x2B, 'v2 ps v1') for n, (_, f3) in STORES.items()}
    return rows


# of a vector word that is not masked
VM = 1 << 25


def vector_word(funct6, funct3):
    return funct6 << 26 | VM | funct3 << 12 | 0x57


def vector_table():
    rows = {}
    for ops, funct3 in ((VECTOR_OPS, 1), (VECTOR_M_OPS, 2)):
        for first, names, forms in ops:
            for at, n in enumerate(names.split()):
                for form in (FORMS[letter] for letter in forms):
                    rows['%s.v%s' % (n, form[0])] = (vector_word(first + at, form[funct3]), 'vd v2 ' + form[3])
    for form in (FORMS[letter] for letter in 'vxi'):
        rows['vmv.v.' + form[0]] = (vector_word(0b010111, form[1]), 'vd ' + form[3])
    rows['vmv.x.s'] = (vector_word(0b010000, 2), 'xd v2')
    rows['vmv.s.x'] = (vector_word(0b010000, 6), 'vd x1')
    rows['vid.v'] = (vector_word(0b010100, 2) | 0b10001 << 15, 'vd')
    return rows


def merge_table():
    forms = (FORMS[letter] for letter in 'vxi')
    return {'vmerge.v%sm' % form[0]: (vector_word(0b010111, form[1]) & ~VM, 'vd v2 %s v0' % form[3]) for form in forms}


# a name that is no field stands for itself
VENTUS, VECTOR, MERGES = ventus_table(), vector_table(), merge_table()
# what only programs for QEMU have; lanes that are not written keep their words (tu, mu)
QEMU_ONLY = {'ecall': (0x73, ''), 'vsetvli': (0x01007057, 'xd x1 e32 m1 tu mu'), 'vle32.v': (0x02006007, 'vd x1'), 'vse32.v': (0x02006027, 'vd x1'),
             'vrgather.vi': (0x32003057, 'vd v2 unsigned')}
TABLE = scalar_table() | VECTOR | MERGES | VENTUS | QEMU_ONLY


def parse(text, target_base=0):
    """the name and the operands, numbers as such; a jump's target is written in the base"""
    name, *operands = re.split(r'[\s,()]+', re.sub(r'[#<].*', '', text).strip(' )'))
    base = target_base if name in JUMPS else 0
    return (name, *(int(o, base) if i == len(operands) - 1 and base or re.match(r'-?\d', o) else o for i, o in enumerate(operands)))


def word(text):
    name, *operands = parse(text)
    bits, fields = TABLE[name]
    if operands[-1:] == ['v0.t']:           # masked
        bits ^= bits & VM
        operands.pop()
    fields = fields.split()
    assert len(fields) == len(operands), text
    for field, operand in zip(fields, operands):
        if field in FIELDS:
            bits |= FIELDS[field](operand)
        else:
            assert field == operand, text
    return bits


def disassemble(words):
    """binutils' text of each word, as code of an RV32 object with I, M, Zicsr, Zifencei and V"""
    with tempfile.TemporaryDirectory() as folder:
        source, code = (os.path.join(folder, name) for name in ('words.s', 'words.o'))
        with open(source, 'w') as f:
            f.write('.option norelax\n.option norvc\n.text\n')
            f.writelines('.insn 4, 0x%08x\n' % w for w in words)
        output_of(AS, '-march=rv32imv_zicsr_zifencei', '-mabi=ilp32', '-o', code, source)
        out = output_of(OBJDUMP, '-d', '-z', '-M', 'no-aliases,numeric', code).decode()
    # address, word, text
    rows = re.findall(r'^\s*([0-9a-f]+):\s+([0-9a-f]{8})\s+(.*)$', out, re.M)
    read = {int(address, 16): (int(word, 16), text.strip()) for address, word, text in rows}
    for at, w in enumerate(words):
        assert read[4 * at][0] == w, (hex(w), hex(read[4 * at][0]))
    return [read[4 * at][1] for at in range(len(words))]


def check_encoder(texts):
    """every different text's word, as binutils reads it back; returns how many were held against it"""
    texts = sorted({t for t in texts if parse(t)[0] not in VENTUS})
    for at, (text, read) in enumerate(zip(texts, disassemble([word(t) for t in texts]))):
        meant = parse(text)
        if meant[0] in JUMPS:
            meant = (*meant[:-1], 4 * at + meant[-1] & 0xFFFFFFFF)
        assert parse(read, 16) == meant, (text, read)
    return len(texts)


def load_immediate(register, value):
    """one or two instructions that put the value's low 32 bits in a scalar register"""
    value &= 0xFFFFFFFF
    low = (value & 0xFFF ^ 0x800) - 0x800
    upper = (value - low & 0xFFFFFFFF) >> 12
    if upper == 0:
        return ['addi %s,x0,%d' % (register, low)]
    return ['lui %s,0x%x' % (register, upper)] + ['addi %s,%s,%d' % (register, register, low)] * (low != 0)


# ---- cards and case files


def card(numt=4, mask=None, entry=None, length=48, version=1, code=CODE, data=DATA, numw=1, wid=0, lds=0, pds=0):
    mask = (1 << numt) - 1 if mask is None else mask
    words = [mask, code, data, code if entry is None else entry, 0, 0, lds, pds, 0, 0, 0]
    return struct.pack('>HBBBB11I', length, version, numt, numw, wid, *words)


def packed(words, order):
    return struct.pack('%s%dI' % (order, len(words)), *words)


def record(kind, words, data, budget=65536):
    """a launch of all lanes; the vector file's four words only say its size, since a launch clears it"""
    launch_card = card(LANES)
    body = packed([len(launch_card)], '>') + launch_card
    body += packed([len(words), len(words), *words, 0], '>')
    body += packed([len(data), len(data)], '>') + data + packed([0], '>')
    body += packed([VECTOR_WORDS, 0, 0, 0, budget], '>')
    return struct.pack('>BI', kind, len(body)) + body


def case_file(records):
    return b'WBC1' + packed([len(records)], '>') + b''.join(records)


def answer_line(number, steps, words, last):
    """of a kernel that ran to its last word, ENDPRG"""
    return '%d 3 %d %08x %08x 0 %08x\n' % (number, steps, CODE + 4 * (len(words) - 1), (1 << LANES) - 1, last)


def digest(data):
    h = 0x811C9DC5
    for byte in data:
        h = (h ^ byte) * 0x01000193 & 0xFFFFFFFF
    return h


def write_case_file(name, records, expected, program):
    """writes the file if the reference's program answers the expected lines, else says where they differ"""
    content = case_file(records)
    with tempfile.NamedTemporaryFile() as f:
        f.write(content)
        f.flush()
        answers = output_of(program, 'answer', f.name).decode().splitlines(True)
    differ = [pair for pair in zip(expected, answers) if pair[0] != pair[1]]
    for pair in differ:
        print('expected %sreference %s' % pair, end='')
    if differ or len(expected) != len(answers):
        sys.exit('%s: %d of %d lines differ, nothing written' % (name, len(differ), len(expected)))
    with open(os.path.join(DATA_FOLDER, name), 'wb') as f:
        f.write(content)
    print('%s: %d cases, %d bytes' % (name, len(records), len(content)))


def check_stored(path, content):
    """ends the script if the file is missing or has other bytes"""
    name = os.path.relpath(path, ROOT)
    if not os.path.isfile(path):
        sys.exit('%s: missing' % name)
    with open(path, 'rb') as f:
        if f.read() != content:
            sys.exit('%s: not what is made here' % name)


def check_case_file(name, records):
    check_stored(os.path.join(DATA_FOLDER, name), case_file(records))
    print('%s: %d cases, as made here' % (name, len(records)))


# ---- QEMU


def elf(words, data):
    """an RV32 program of two segments, at CODE and DATA"""
    code = packed(words, '<')
    at = 0x1000
    data_at = at + (len(code) + 0xFFF & ~0xFFF)
    head = b'\x7fELF\x01\x01\x01' + bytes(9)
    head += struct.pack('<HHIIIIIHHHHHH', 2, 243, 1, CODE, 52, 0, 0, 52, 32, 2, 0, 0, 0)
    head += struct.pack('<8I', 1, at, CODE, CODE, len(code), len(code), 5, 0x1000)
    head += struct.pack('<8I', 1, data_at, DATA, DATA, len(data), len(data), 6, 0x1000)
    return head.ljust(at, b'\0') + code.ljust(data_at - at, b'\0') + data


def words_of(texts):
    return [word(t) for t in texts]


def run_qemu(words, data, *options):
    """the finished run: its exit number and what it wrote"""
    with tempfile.TemporaryDirectory() as folder:
        path = os.path.join(folder, 'program')
        with open(path, 'wb') as f:
            f.write(elf(words, data))
        os.chmod(path, 0o755)
        return subprocess.run([QEMU, *options, path], capture_output=True)


def print_versions():
    need_tools(QEMU, OBJDUMP, AS)
    for tool in (QEMU, OBJDUMP):
        print(output_of(tool, '--version').decode().split('\n')[0])
