"""Instructions of RV64IMC as numbers, and in words (ISA manual, chapters 2, 4 and 13, "C", and the instruction set
listings)."""

LUI, AUIPC, JAL, JALR, BRANCH, LOAD, STORE, OP_IMM = 0x37, 0x17, 0x6F, 0x67, 0x63, 0x03, 0x23, 0x13
# Instructions that aren't in RV64IMC, by their opcodes; and those of two bytes, by quadrant and funct3.
OPCODES = {0x07: "a floating-point load, or one of vectors", 0x27: "a floating-point store, or one of vectors",
           0x43: "FMADD", 0x47: "FMSUB", 0x4B: "FNMSUB", 0x4F: "FNMADD", 0x53: "a floating-point instruction",
           0x2F: "an atomic instruction", 0x57: "an instruction of vectors", 0x0B: "an instruction of a vendor",
           0x2B: "an instruction of a vendor", 0x5B: "an instruction of a vendor", 0x7B: "an instruction of a vendor"}
HALVES = {(0, 1): "C.FLD", (0, 5): "C.FSD", (2, 1): "C.FLDSP", (2, 5): "C.FSDSP", (0, 4): "an instruction of Zcb"}
NAMES = {LUI: "LUI", AUIPC: "AUIPC", JAL: "JAL", JALR: "JALR", BRANCH: "a branch", LOAD: "a load", STORE: "a store",
         OP_IMM: "an operation with an immediate", 0x33: "an operation",
         0x1B: "an operation of 32 bits with an immediate",
         0x3B: "an operation of 32 bits", 0x0F: "FENCE", 0x73: "a system instruction"}
BRANCHES = ("BEQ", "BNE", "a branch", "a branch", "BLT", "BGE", "BLTU", "BGEU")


def signed(value, bits):
    """A number in two's complement of so many bits."""
    return value - (1 << bits) if value >> (bits - 1) & 1 else value


def hi20(value):
    """The upper part of an address (psABI, "Relocations")."""
    return (value + 0x800) >> 12


def lo12(value):
    return value - (hi20(value) << 12)


def upper_immediate(word):
    """The immediate of LUI or AUIPC."""
    return signed(word >> 12, 20)


def immediate_i(word):
    """The immediate of ADDI, a load or JALR, if the word is one of these."""
    opcode, kind = word & 0x7F, word >> 12 & 7
    fits = opcode == OP_IMM and kind == 0 or opcode == JALR and kind == 0 or opcode == LOAD and kind != 7
    return signed(word >> 20, 12) if fits else None


def immediate_s(word):
    """The immediate of a store, if the word is one."""
    if word & 0x7F != STORE or word >> 12 & 7 > 3:
        return None
    return signed(word >> 25 << 5 | word >> 7 & 31, 12)


def target_of(address, word, size):
    """Where a branch or a jump to a fixed address goes, if the word is one."""
    if size == 4 and word & 0x7F == JAL:
        field = word >> 31 << 20 | (word >> 12 & 0xFF) << 12 | (word >> 20 & 1) << 11 | (word >> 21 & 0x3FF) << 1
        return (address + signed(field, 21)) % (1 << 64)
    if size == 4 and word & 0x7F == BRANCH and word >> 12 & 7 not in (2, 3):
        field = word >> 31 << 12 | (word >> 7 & 1) << 11 | (word >> 25 & 0x3F) << 5 | (word >> 8 & 0xF) << 1
        return (address + signed(field, 13)) % (1 << 64)
    if size == 2 and word & 3 == 1 and word >> 13 in (5, 6, 7):
        return (address + compressed_distance(word)) % (1 << 64)
    return None


def compressed_distance(word):
    """The distance of C.J, C.BEQZ or C.BNEZ."""
    if word >> 13 == 5:
        bits = ((12, 11), (11, 4), (10, 9), (9, 8), (8, 10), (7, 6), (6, 7), (5, 3), (4, 2), (3, 1), (2, 5))
        return signed(sum((word >> a & 1) << b for a, b in bits), 12)
    bits = ((12, 8), (11, 4), (10, 3), (6, 7), (5, 6), (4, 2), (3, 1), (2, 5))
    return signed(sum((word >> a & 1) << b for a, b in bits), 9)


def in_words(word, size):
    """An instruction in words: its bytes as a number, and what it is."""
    if size == 2:
        kinds = {5: "C.J", 6: "C.BEQZ", 7: "C.BNEZ"} if word & 3 == 1 else {}
        return f"{word:04x} ({kinds.get(word >> 13, 'an instruction of two bytes')})"
    opcode, register = word & 0x7F, word >> 7 & 31
    if opcode in (LUI, AUIPC):
        return f"{word:08x} ({NAMES[opcode]} x{register},{upper_immediate(word) & 0xFFFFF:#x})"
    if opcode == BRANCH:
        return f"{word:08x} ({BRANCHES[word >> 12 & 7]})"
    if immediate_i(word) is not None:
        name = {JALR: "JALR", OP_IMM: "ADDI"}.get(opcode, "a load")
        return f"{word:08x} ({name} x{register},x{word >> 15 & 31},{immediate_i(word)})"
    return f"{word:08x} ({NAMES.get(opcode) or OPCODES.get(opcode, 'no instruction that is known')})"


def what_else(word, size):
    """What an instruction is that isn't one of RV64IMC, as far as its opcode says it."""
    if word in (0, 0xFFFFFFFF):
        return "all zeros or all ones, which no instruction is"
    if size == 2:
        return HALVES.get((word & 3, word >> 13), "reserved, or of another extension")
    opcode, kind = word & 0x7F, word >> 12 & 7
    if opcode == 0x73 and kind:
        return "a CSR instruction (Zicsr)"
    if opcode == 0x73:
        return "a privileged instruction"
    if opcode == 0x0F and kind == 1:
        return "FENCE.I (Zifencei)"
    return OPCODES.get(opcode, "reserved, or of another extension")


# The four-byte instructions by opcode and funct3, with the values that funct7 has; none if it is part of a number.
FULL = {(opcode, kind): None for opcode, kinds in ((LOAD, range(7)), (STORE, range(4)), (JALR, (0,)), (0x0F, (0,)),
                                                   (BRANCH, (0, 1, 4, 5, 6, 7)), (OP_IMM, (0, 2, 3, 4, 6, 7)),
                                                   (0x1B, (0,))) for kind in kinds}
FULL |= {(0x33, kind): {0, 1} for kind in range(8)} | {(0x33, 0): {0, 1, 0x20}, (0x33, 5): {0, 1, 0x20}}
FULL |= {(0x3B, 0): {0, 1, 0x20}, (0x3B, 1): {0}, (0x3B, 5): {0, 1, 0x20}, **{(0x3B, kind): {1} for kind in (4, 6, 7)}}
FULL |= {(0x1B, 1): {0}, (0x1B, 5): {0, 0x20}}
FULL |= {(OP_IMM, 1): {0, 1}, (OP_IMM, 5): {0, 1, 0x20, 0x21}}  # funct6, and a bit of the amount


def is_instruction(word, size):
    """Whether the bytes are an instruction of RV64IMC."""
    if size == 2:
        return is_half(word)
    if word & 0x7F in (LUI, AUIPC, JAL) or word in (0x73, 0x100073):
        return True
    values = FULL.get((word & 0x7F, word >> 12 & 7), ())
    return values is None or word >> 25 in values


def is_half(half):
    """Whether the bytes are an instruction of two bytes ("RVC Instruction Set Listings")."""
    quadrant, kind, register = half & 3, half >> 13, half >> 7 & 31
    if quadrant == 0:
        return bool(half & 0x1FE0) if kind == 0 else kind in (2, 3, 6, 7)
    if quadrant == 1:
        pair = half >> 10 & 3 == 3 and half >> 12 & 1
        tests = {1: register != 0, 3: half & 0x107C != 0, 4: not pair or half >> 5 & 3 < 2}
        return tests.get(kind, True)
    tests = {1: False, 2: register != 0, 3: register != 0, 4: half & 0x1FFC != 0, 5: False}
    return tests.get(kind, True)
