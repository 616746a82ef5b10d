#!/usr/bin/env python3
"""Writes the smallest example: an executable of four instructions that ends with status 7.

    python3 checks/exit7.py FILE

The file has the ELF header, one program header, the code, the names of the sections and three
section headers, in this order, 352 bytes in all. It is the stored input of the program's run in the
gate, crates/bolt_cli/data/exit7.elf.
"""
import struct
import sys

BASE, CODE = 0x10000, 0x78
code = bytes.fromhex("37050000" "13057500" "9308d005" "73000000")  # LUI a0,0; ADDI a0,a0,7; ADDI a7,x0,93; ECALL
names = b"\0.text\0.shstrtab\0"
names_at = CODE + len(code)
table_at = -(-(names_at + len(names)) // 8) * 8

header = b"\x7fELF\x02\x01\x01" + bytes(9)
header += struct.pack("<HHIQQQIHHHHHH", 2, 0xF3, 1, BASE + CODE, 64, table_at, 0, 64, 56, 1, 64, 3, 2)
segment = struct.pack("<IIQQQQQQ", 1, 5, 0, BASE, BASE, names_at, names_at, 0x1000)
sections = bytes(64)
sections += struct.pack("<IIQQQQIIQQ", 1, 1, 6, BASE + CODE, CODE, len(code), 0, 0, 4, 0)
sections += struct.pack("<IIQQQQIIQQ", 7, 3, 0, 0, names_at, len(names), 0, 0, 1, 0)

body = header + segment + code + names
body += bytes(table_at - len(body)) + sections
assert len(body) == 352
open(sys.argv[1], "wb").write(body)
