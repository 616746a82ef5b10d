"""Relocations that don't fit, and files that select functions or were rewritten: 9 to 14."""
from planted.files import (EXIT, LABEL, NOP, START, Planted, Program, Symbol, addi, auipc, jalr, lui, number)

LOAD = auipc(10, 0) + addi(10, 10, 16)  # la a0, START + 16


def program(code, *symbols):
    """A function `main` of some code, and more symbols, of which the first has the number 2."""
    code += EXIT
    return Program(code, [Symbol("main", size=len(code)), *symbols])


def types():
    for kind, name, cure in ((46, "R_RISCV_RVC_LUI (type 46)", "--no-relax"),
                             (62, "R_RISCV_TLSDESC_HI20 (type 62)", "tls"),
                             (200, "the type 200", "")):
        made = program(NOP).relocate(START, kind, 1, 4)
        yield Planted(f"type-{kind}", made.bytes(), f"RelocType at {START:x}", (name, "`main+4`", "main+0", "`.text`"))


def fields():
    yield Planted("no-symbol", program(NOP).relocate(START, 2, 9).bytes(), f"RelocMismatch at {START:x}",
                  ("R_RISCV_64", "symbol 9", "the table has 2"))
    made = program(NOP)
    at = made.load(".rodata", bytes(4))
    made.relocate(at, 2, 1, section=2)
    yield Planted("no-field", made.bytes(), f"RelocMismatch at {at:x}", ("R_RISCV_64", "field of 8 bytes", "`.rodata`"))
    made = program(NOP)
    at = made.load(".rodata", b"\x80\x80")
    made.relocate(at, 60, 1, section=2)
    yield Planted("no-leb", made.bytes(), f"RelocMismatch at {at:x}",
                  ("R_RISCV_SET_ULEB128", "LEB128 number doesn't end"))


def calls():
    made = program(auipc(1, 0) + NOP).relocate(START, 19, 1)
    yield Planted("no-jalr", made.bytes(), f"RelocMismatch at {START:x}",
                  ("R_RISCV_CALL_PLT", "`main`", "AUIPC followed by a JALR", "00000013 (ADDI"))
    made = program(auipc(1, 0) + jalr(1, 6, 8)).relocate(START, 18, 1)
    yield Planted("other-register", made.bytes(), f"RelocMismatch at {START:x}", ("R_RISCV_CALL (", "x1", "through x6"))
    made = program(auipc(1, 0x7FFFF) + jalr(1, 1, 0)).relocate(START, 18, 1)
    yield Planted("far-call", made.bytes(), f"RelocMismatch at {START:x}", (f"target {START + (0x7FFFF << 12):x}",))


def uppers():
    made = program(NOP).relocate(START, 23, 1)
    yield Planted("no-auipc", made.bytes(), f"RelocMismatch at {START:x}",
                  ("R_RISCV_PCREL_HI20", "wants an AUIPC", "00000013"))
    made = program(LOAD).relocate(START, 23, 1)
    yield Planted("no-lower", made.bytes(), f"RelocMismatch at {START:x}",
                  ("upper part", "no relocation for a lower part"))
    label = Symbol("here", START, 0, LABEL)
    made = program(auipc(10, 0x7FFFF) + addi(10, 10, 0), label).relocate(START, 23, 1).relocate(START + 4, 24, 2)
    yield Planted("far-address", made.bytes(), f"RelocMismatch at {START:x}", (f"target {START + (0x7FFFF << 12):x}",))
    made = program(auipc(10, 0) + addi(10, 10, 24), label)
    slot = made.load(".got", number(0x4444, 8))
    made.code = auipc(10, 0) + addi(10, 10, slot - START) + EXIT
    made.relocate(START, 20, 1).relocate(START + 4, 24, 2)
    yield Planted("slot", made.bytes(), f"RelocMismatch at {START:x}",
                  ("R_RISCV_GOT_HI20", f"global offset table at {slot:x}", "4444", f"{START:x}"))


def lowers():
    label = Symbol("here", START, 0, LABEL)
    made = program(auipc(10, 0) + lui(10, 5), label).relocate(START, 23, 1).relocate(START + 4, 24, 2)
    yield Planted("no-addi", made.bytes(), f"RelocMismatch at {START + 4:x}",
                  ("R_RISCV_PCREL_LO12_I", "`here`", "ADDI, a load or JALR", "00005537 (LUI x10,0x5)"))
    made = program(LOAD).relocate(START + 4, 25, 1)
    yield Planted("no-store", made.bytes(), f"RelocMismatch at {START + 4:x}",
                  ("R_RISCV_PCREL_LO12_S", "wants a store"))
    made = program(NOP + LOAD).relocate(START + 8, 24, 1)
    yield Planted("names-nop", made.bytes(), f"RelocMismatch at {START + 8:x}",
                  (f"names {START:x} as its AUIPC", "00000013"))
    made = program(LOAD).relocate(START + 4, 24, 1)
    yield Planted("names-bare", made.bytes(), f"RelocMismatch at {START + 4:x}",
                  (f"AUIPC at {START:x}", "no relocation for an upper"))
    made = program(lui(10, 0x10) + addi(10, 10, 5)).relocate(START + 4, 27, 1)
    yield Planted("absolute", made.bytes(), f"RelocMismatch at {START + 4:x}",
                  ("R_RISCV_LO12_I", f"code address {START:x}", f"wants {START & 0xFFF}", "has 5"))


def differences():
    for name, added, subtracted, size, words in (("add32", 35, 39, 4, "32 bits has 63"),
                                                 ("add8", 33, 37, 1, "8 bits has 63"),
                                                 ("uleb", 60, 61, 1, "LEB128 number is 63")):
        made = program(NOP)
        at = made.load(".rodata", number(0x63, size))
        made.relocate(at, subtracted, 1, section=2).relocate(at, added, 1, 8, section=2)
        yield Planted(name, made.bytes(), f"RelocMismatch at {at:x}", (f"{START + 8:x} from {START:x}, 8", words))
    made = program(NOP)
    at = made.load(".rodata", bytes(4))
    made.relocate(at, 35, 1, section=2)
    yield Planted("unpaired", made.bytes(), f"RelocMismatch at {at:x}",
                  ("R_RISCV_ADD32", f"code address {START:x}", "1 relocations", "0 subtract"))
    made = program(NOP)
    at = made.load(".rodata", number((START - 0x80000000) % (1 << 64), 8))
    made.relocate(at, 36, 1, section=2).relocate(at, 40, 0, 0x80000000, section=2)
    yield Planted("far-label", made.bytes(), f"RelocMismatch at {at:x}", ("80000000", "no address of a program"))


def lo_mismatch():
    label = Symbol("here", START, 0, LABEL)
    made = program(LOAD + addi(11, 10, 20), label).relocate(START, 23, 1)
    made.relocate(START + 4, 24, 2).relocate(START + 8, 24, 2)
    yield Planted("lo", made.bytes(), f"LoMismatch at {START:x}",
                  (f"AUIPC at {START:x}", f"{START + 4:x} (main+4) has 16", f"{START + 8:x} (main+8) has 20"))


def narrow():
    for name, added, subtracted, value, words in (("16", 34, 38, number(4, 2), "16 bits"),
                                                  ("set32", 56, 39, number(4, 4), "SET32")):
        made = program(NOP)
        at = made.load(".rodata", value)
        made.relocate(at, added, 1, 4, section=2).relocate(at, subtracted, 1, section=2)
        yield Planted(f"narrow-{name}", made.bytes(), f"NarrowDiff at {at:x}",
                      ("`.rodata`", f"{START + 4:x}", "main+0", words))


def selecting():
    yield Planted("ifunc", program(NOP, Symbol("chosen", START + 4, 0, 0x1A)).bytes(), f"IfuncOrPlt at {START + 4:x}",
                  ("`chosen`", "STT_GNU_IFUNC"))
    made = program(NOP)
    at = made.load(".iplt", bytes(16))
    yield Planted("iplt", made.bytes(), f"IfuncOrPlt at {at:x}", ("`.iplt`", "16 bytes of stubs"))
    made = program(NOP)
    at = made.load(".got", bytes(8))
    made.relocate(at, 58, 0, START, section=2)
    yield Planted("irelative", made.bytes(), f"IfuncOrPlt at {at:x}", ("R_RISCV_IRELATIVE", "`.got`"))
    yield Planted("moved", program(NOP).add(".old.text", NOP).bytes(), "AlreadyMoved at 2",
                  ("section 2", "`.old.text`"))


def all_files():
    for kind in (types, fields, calls, uppers, lowers, differences, lo_mismatch, narrow, selecting):
        yield from kind()
