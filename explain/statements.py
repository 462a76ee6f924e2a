"""The statements of the assembler: each mnemonic with its operands. An operand is R, a register; M, as 4(x2); A, as (x2); or the
range of a value."""

from collections import namedtuple

# least, most: of the value. step: 2 for the distance of a jump. name: what the range is of.
Range = namedtuple("Range", "least most step")

I12, SHIFT, U20 = Range(-2048, 2047, 1), Range(0, 31, 1), Range(0, 1048575, 1)
BRANCH, JUMP = Range(-4096, 4094, 2), Range(-1048576, 1048574, 2)
WORD, ZEROS = Range(-(1 << 31), (1 << 32) - 1, 1), Range(0, 4194304, 1)
R, M, A = "RMA"
DISTANCES = (BRANCH, JUMP)
MOST_WORDS = 4194304

ORDERINGS = ("", ".aq", ".rl", ".aqrl")
TABLE = [
    ("add sub sll slt sltu xor srl sra or and mul mulh mulhsu mulhu div divu rem remu", (R, R, R)),
    ("addi slti sltiu xori ori andi", (R, R, I12)),
    ("slli srli srai", (R, R, SHIFT)),
    ("lb lh lw lbu lhu jalr sb sh sw", (R, M)),
    ("lui auipc", (R, U20)),
    ("beq bne blt bge bltu bgeu", (R, R, BRANCH)),
    ("jal", (R, JUMP)),
    (" ".join("lr.w" + o for o in ORDERINGS), (R, A)),
    (" ".join(name + ".w" + o for name in "sc amoadd amoswap amoxor amoor amoand amomin amomax amominu amomaxu".split()
              for o in ORDERINGS), (R, R, A)),
    ("fence fence.i ecall ebreak", ()),
    (".word", (WORD,)),
    (".zero", (ZEROS,)),
]
STATEMENTS = {name: kinds for names, kinds in TABLE for name in names.split()}

# What is written elsewhere in place of one of these.
PSEUDO = {"li": "addi x5, x0, V", "mv": "addi x5, x6, 0", "j": "jal x0, LABEL", "nop": "addi x0, x0, 0", "ret": "jalr x0, 0(x1)",
          "beqz": "beq x5, x0, LABEL", "bnez": "bne x5, x0, LABEL", "call": "jal x1, LABEL", "la": "lui x5, V` and `addi x5, x5, V"}


def form(name):
    """The statement as it is written, for example `lw x1, V(x2)`."""
    kinds = STATEMENTS[name]
    texts = []
    for n, kind in enumerate(kinds, 1):
        texts.append({R: "x%d" % n, M: "V(x%d)" % n, A: "(x%d)" % n}.get(kind, "N" if kind is ZEROS else "V"))
    return " ".join([name, ", ".join(texts)]).strip()
