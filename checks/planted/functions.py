"""Entry points, instructions and branches that can't be moved, and tables that are registered: 15 to 20."""
from planted.files import EXIT, NOP, RETURN, START, Planted, Program, Symbol, auipc, beq, jal, jalr, number
from planted.frames import CIE, fde

LONG = 1_000_100  # bytes of a function that is too long


def entries():
    yield Planted("entry-inside", Program(entry=START + 2).bytes(), f"BadEntry at {START + 2:x}",
                  (f"e_entry is {START + 2:x}", f"inside the instruction that starts at {START:x}"))
    program = Program(entry=0x5000)
    yield Planted("entry-nowhere", program.bytes(), "BadEntry at 5000", ("in no loaded section",))
    program = Program()
    program.entry = program.load(".rodata", bytes(8))
    yield Planted("entry-data", program.bytes(), f"BadEntry at {program.entry:x}", ("`.rodata`, which has no code",))
    program = Program(EXIT + bytes(8), [Symbol("main", size=len(EXIT))], entry=START + len(EXIT))
    yield Planted("entry-zeros", program.bytes(), f"BadEntry at {program.entry:x}", ("padding, zeros",))


def instructions():
    for name, word, words in (("zero", 0, "all zeros"), ("fadd", 0x02007053, "floating-point instruction"),
                              ("amo", 0x0805252F, "atomic"), ("csr", 0x00301073, "CSR"),
                              ("fence-i", 0x0000100F, "FENCE.I"),
                              ("flw", 0x00052007, "floating-point load"), ("vendor", 0x0000000B, "vendor")):
        size = 4 if word & 3 == 3 else 2
        code = NOP + number(word, 4) + EXIT
        yield Planted(f"no-{name}", Program(code).bytes(), f"BadInstruction at {START + 4:x}",
                      (f"{word:0{2 * size}x} at {START + 4:x} (main+4)", words))
    yield Planted("half", Program(b"\1\0" + EXIT + b"\1\0", flags=0).bytes(), f"BadInstruction at {START:x}",
                  ("0001", "two bytes", "no flag RVC"))
    program = Program(EXIT + NOP, [Symbol("main", size=len(EXIT)), Symbol("cut", START + len(EXIT), 2)])
    yield Planted("cut", program.bytes(), f"BadInstruction at {START + len(EXIT):x}",
                  ("00000013", "cut+0", f"ends at {START + len(EXIT) + 2:x}"))


def auipcs():
    code = NOP + auipc(10, 1) + EXIT
    yield Planted("bare", Program(code).bytes(), f"BareAuipc at {START + 4:x}", ("main+4", "no relocations at all"))
    program = Program(code).relocate(START, 51)
    yield Planted("bare-here", program.bytes(), f"BareAuipc at {START + 4:x}", ("`.text` has 1 of them",))
    program = Program(code).relocate(START + 4, 51)
    yield Planted("bare-relax", program.bytes(), f"BareAuipc at {START + 4:x}", ("only R_RISCV_RELAX",))


def targets():
    yield Planted("jump-inside", Program(jal(0, 6) + NOP + EXIT).bytes(), f"BadTarget at {START:x}",
                  ("JAL", f"goes to {START + 6:x}", "the middle of an instruction"))
    yield Planted("jump-away", Program(jal(0, 0x2000) + EXIT).bytes(), f"BadTarget at {START:x}",
                  (f"goes to {START + 0x2000:x}", "no code"))
    program = Program(jal(1, -START) + EXIT, [Symbol("main", size=4 + len(EXIT)), Symbol("weak", 0, 0, 0x20, 0)])
    yield Planted("jump-weak", program.relocate(START, 17, 2).bytes(), f"BadTarget at {START:x}",
                  ("goes to 0", "no code"))
    program = Program(auipc(1, 0) + jalr(1, 1, 10) + NOP + EXIT).relocate(START, 19, 1, 10)
    yield Planted("call-inside", program.bytes(), f"BadTarget at {START:x}",
                  (f"goes to {START + 10:x}", "the middle of an instruction"))


def long_units():
    code = NOP * (LONG // 4) + RETURN
    yield Planted("long", Program(code, [Symbol("endless", size=len(code))]).bytes(), f"UnitTooLong at {START:x}",
                  ("`endless`", f"{len(code):,} bytes"))
    half = NOP * (LONG // 8)
    code = half + half + RETURN
    symbols = [Symbol("first", size=len(half)), Symbol("second", START + len(half), len(half) + 4)]
    yield Planted("tied", Program(code, symbols).bytes(), f"UnitTooLong at {START:x}",
                  ("2 functions", "`first`", "`second`", "falling through"))


def kept():
    code = beq(16) + NOP + NOP + RETURN + EXIT
    symbols = [Symbol("thrower", size=16), Symbol("cold", START + 16, len(EXIT))]
    program = Program(code, symbols)
    at = program.next_address()
    program.load(".eh_frame", CIE["table"] + fde(len(CIE["table"]), at, START, 16, table=START))
    yield Planted("kept", program.bytes(), f"KeptBranch at {START:x}",
                  ("BEQ", "thrower+0", f"for {START + 16:x} (cold+0)", "exception table",
                   f"FDE at offset {len(CIE['table']):x}"))


def registered():
    for name in ("__register_frame", "__register_frame_info"):
        program = Program(EXIT, [Symbol("main", size=len(EXIT)), Symbol(name, START, 0, 0x10)])
        at = program.next_address()
        program.load(".eh_frame", CIE["plain"] + fde(len(CIE["plain"]), at, START, len(EXIT)))
        yield Planted(name, program.bytes(), f"RegisteredFrames at {at:x}", (f"`{name}`", "PT_GNU_EH_FRAME", f"{at:x}"))


def all_files():
    for kind in (entries, instructions, auipcs, targets, long_units, kept, registered):
        yield from kind()
