"""The instructions: one table from which the assembler and the disassembler follow.

A word is 64 bits, byte 0 lowest (document 01, 'Instruction and image'):

    byte   0       1       2       3       4 .. 7
           opcode  dst     lhs     rhs                        registers in declared order
                           target (2-3)                       a second register is then byte 4
                                           imm, value, idx, func, size, offset, table

Operands are written in the order of their bytes, and named as in op.rs. docs/LISTING.md says what each instruction does.
"""

# What stands where: first byte, how many bytes, what it is.
FIELDS = {
    "r1": (1, 1, "register"),
    "r2": (2, 1, "register"),
    "r3": (3, 1, "register"),
    "r4": (4, 1, "register"),
    "target": (2, 2, "place"),
    "func": (4, 4, "place"),
    "imm": (4, 4, "signed"),
    "size": (4, 4, "unsigned"),
    "global": (4, 4, "global"),
    "switch": (4, 4, "switch"),
    "lookup": (4, 4, "lookup"),
    "kind1": (1, 1, "switch kind"),
    "kind3": (3, 1, "switch kind"),
    "alloc2": (2, 1, "alloc type"),
    "align3": (3, 1, "align"),
}

# The kinds by their numbers, named as in op.rs and gc.rs.
KINDS = {
    "switch kind": ["Str", "Int"],
    "alloc type": ["Record", "Array", "Option", "String"],
}

ALIGNS = [1, 2, 4, 8]

# The operands of an instruction as they are written, and the fields that they go to.
FORMATS = {
    "": "",
    "cond": "r1",
    "dst src": "r1 r2",
    "dst lhs rhs": "r1 r2 r3",
    "dst lhs imm": "r1 r2 imm",
    "dst value": "r1 imm",
    "dst idx": "r1 global",
    "target": "target",
    "cond target": "r1 target",
    "lhs target imm": "r1 target imm",
    "lhs target rhs": "r1 target r4",
    "kind subject table": "kind1 r2 switch",
    "dst subject kind table": "r1 r2 kind3 lookup",
    "func": "func",
    "dst kind align size": "r1 alloc2 align3 size",
    "base src offset": "r1 r2 size",
    "dst base offset": "r1 r2 size",
}

# Opcode, name as in op.rs, operands. 40 to 49 are not carried.
TABLE = [
    (0, "IAdd", "dst lhs rhs"),
    (1, "IAddI", "dst lhs imm"),
    (2, "ISub", "dst lhs rhs"),
    (3, "ISubI", "dst lhs imm"),
    (4, "IMul", "dst lhs rhs"),
    (5, "IMulI", "dst lhs imm"),
    (6, "IDiv", "dst lhs rhs"),
    (7, "IDivI", "dst lhs imm"),
    (8, "IMod", "dst lhs rhs"),
    (9, "IModI", "dst lhs imm"),
    (10, "IAnd", "dst lhs rhs"),
    (11, "IAndI", "dst lhs imm"),
    (12, "ILt", "dst lhs rhs"),
    (13, "IGt", "dst lhs rhs"),
    (14, "IEq", "dst lhs rhs"),
    (15, "IEqI", "dst lhs imm"),
    (16, "IGtI", "dst lhs imm"),
    (17, "ILtI", "dst lhs imm"),
    (18, "DAdd", "dst lhs rhs"),
    (19, "DSub", "dst lhs rhs"),
    (20, "DMul", "dst lhs rhs"),
    (21, "DDiv", "dst lhs rhs"),
    (22, "DLt", "dst lhs rhs"),
    (23, "DGt", "dst lhs rhs"),
    (24, "BEq", "dst lhs rhs"),
    (25, "SEq", "dst lhs rhs"),
    (26, "Mov", "dst src"),
    (27, "LoadI", "dst value"),
    (28, "LoadG", "dst idx"),
    (29, "Jmp", "target"),
    (30, "JmpT", "cond target"),
    (31, "JmpF", "cond target"),
    (32, "JmpEqI", "lhs target imm"),
    (33, "JmpNeI", "lhs target imm"),
    (34, "JmpSEq", "lhs target rhs"),
    (35, "JmpSNe", "lhs target rhs"),
    (36, "Switch", "kind subject table"),
    (37, "Lookup", "dst subject kind table"),
    (38, "Tail", "func"),
    (39, "Call", "func"),
    (50, "CastToInt", "dst src"),
    (51, "CastToDouble", "dst src"),
    (52, "CastToBool", "dst src"),
    (53, "Alloc", "dst kind align size"),
    (54, "Store", "base src offset"),
    (55, "Load", "dst base offset"),
    (56, "AddrOf", "dst base offset"),
    (57, "Ret", ""),
    (58, "Assert", "cond"),
    (59, "Halt", ""),
    (60, "Nop", ""),
]


def fields(operands):
    return FORMATS[operands].split()


BY_NAME = {name: (opcode, operands.split(), fields(operands)) for opcode, name, operands in TABLE}
BY_OPCODE = {opcode: (name, fields(operands)) for opcode, name, operands in TABLE}


def pack(opcode, fields, values):
    """The word of an instruction whose fields have these values; a signed one may be negative."""
    word = opcode
    for field, value in zip(fields, values):
        first, size, _ = FIELDS[field]
        word |= value % 2 ** (8 * size) << 8 * first
    return word


def unpack(word):
    """The name of a word's instruction and its (field, value) pairs, or None where it is no instruction's word."""
    row = BY_OPCODE.get(word % 256)
    if row is None:
        return None
    name, fields = row
    values = []
    for field in fields:
        first, size, what = FIELDS[field]
        value = (word >> 8 * first) % 2 ** (8 * size)
        if what == "signed" and value >= 2 ** 31:
            value -= 2 ** 32
        if not fits(what, value):
            return None
        values.append((field, value))
    # an unused byte that is not zero
    if pack(word % 256, fields, [value for _, value in values]) != word:
        return None
    return name, values


def fits(what, value):
    """Whether an operand of this sort can have this value. Whether an index is in range is the machine's to say."""
    if what == "register":
        return 0 <= value < 32
    if what in KINDS:
        return 0 <= value < len(KINDS[what])
    if what == "align":
        return value in ALIGNS
    if what == "signed":
        return -(2 ** 31) <= value < 2 ** 31
    return 0 <= value < 2 ** 32
