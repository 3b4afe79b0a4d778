#!/usr/bin/env python3
"""Makes the image of a program's text by GNU's assembler and linker, and its listing by GNU's disassembler: what `svcsim
assemble` and `list` are held against; and the table of its names, by GNU's nm, where a file is named for it.

    bench/example_image.py TEXT[,TEXT..] IMAGE LISTING [NAMES]

Several texts are assembled each by itself, and linked in their order. Knows images of version 1, and of this project's
directives .svc_entry, .svc_limit and .svc_register. Sections become four: text, read-only data, data, and zeros, of which the
last three are the image's data; what `.comm` names stands in the zeros where the line does, as a name of its text alone. Passes
over what this version of GNU's doesn't know. Needs Debian's binutils-riscv64-unknown-elf.
"""
import re
import struct
import sys
import tempfile

from image_listing import listing_of, tool

ABI = "zero ra sp gp tp t0 t1 t2 s0 s1 a0 a1 a2 a3 a4 a5 a6 a7 s2 s3 s4 s5 s6 s7 s8 s9 s10 s11 t3 t4 t5 t6".split()
SECTIONS = ((".text", ".text"), (".init.text", ".text"), (".rodata", ".section .rodata"), (".srodata", ".section .rodata"), (".data", ".data"),
            (".sdata", ".data"), (".init_array", ".data"), (".bss", ".bss"), (".sbss", ".bss"))
PLACES = """SECTIONS {
    .text 0 : { *(.text) }
    . = 0x100000;
    .rodata : { *(.rodata) }
    .data : ALIGN(4) { *(.data) }
    .bss : ALIGN(4) { *(.bss) }
}
"""


def section(words):
    """The line that begins the section which these words begin, or None where they begin none."""
    name = words[1].strip('"') if words[:1] == [".section"] else words[0] if words else ""
    return next((line for beginning, line in SECTIONS if name.startswith(beginning)), None)


def names_of(symbols):
    """The table of the names of addresses among nm's rows: none of numbers, and none of ours."""
    named = [(int(value, 16), name) for value, kind, name in symbols if kind not in "aA" and not name.startswith("svc_entry_")]
    return "name,address\n" + "".join(f"{name},{address}\n" for address, name in sorted(named))


def plain_of(text, entries, limits, registers):
    """The lines of a text for GNU's assembler, with a label for each entry; and what our own directives say of the image."""
    plain = []
    for line in open(text):
        words = line.split("#")[0].replace(",", " ").split()
        if words[:1] == [".svc_entry"]:
            plain.append(f"svc_entry_{len(entries)}:\n")
            entries.append(f"svc_entry_{len(entries)}")
        elif words[:1] == [".svc_limit"]:
            limits.append(int(words[1], 0))
        elif words[:1] == [".svc_register"]:
            registers[ABI.index(words[1])] = words[2]
        elif words[:1] in ([".comm"], [".lcomm"]):
            name, size, step = [*words[1:], "4"][:3]
            plain.append(f".pushsection .bss\n.balign {step}\n{name}: .zero {size}\n.popsection\n")
        elif words[:1] in ([".loc"], [".addrsig"], [".addrsig_sym"]):
            pass
        elif section(words):
            plain.append(section(words) + "\n")
        else:
            plain.append(line)
    return plain


def image_of(texts):
    """The image of the program in these files, and nm's rows."""
    entries, limits, registers = [], [65536], {}
    with tempfile.TemporaryDirectory() as room:
        objects = []
        for number, text in enumerate(texts):
            with open(f"{room}/{number}.s", "w") as it:
                it.writelines([".option norelax\n", *plain_of(text, entries, limits, registers)])
            objects.append(f"{room}/{number}.o")
            tool("as", "-march=rv32i", "-mabi=ilp32", "-o", objects[-1], f"{room}/{number}.s")
        with open(f"{room}/places", "w") as it:
            it.write(PLACES)
        tool("ld", "-m", "elf32lriscv", "-N", "-e", "0", "-T", f"{room}/places", "-o", f"{room}/a", *objects)
        rows = [it for it in map(str.split, tool("nm", f"{room}/a").splitlines()) if len(it) == 3]
        symbols = {it[2]: int(it[0], 16) for it in rows}
        parts = []
        for names in ("-j .text", "-j .rodata -j .data -j .bss --set-section-flags .bss=alloc,load,contents"):
            tool("objcopy", "-O", "binary", *names.split(), f"{room}/a", f"{room}/part")
            part = open(f"{room}/part", "rb").read()
            parts.append(part + bytes(-len(part) % 4))
    starts = [symbols[it] for it in entries]
    values = [symbols[it] if re.match(r"[A-Za-z_]", it) else int(it, 0) for it in (registers.get(n, "0") for n in range(1, 32))]
    counts = (len(starts), len(parts[0]) // 4, len(parts[1]) // 4, limits[-1], starts[0])
    made = b"SVCI" + struct.pack("<HHIIII", 1, *counts) + struct.pack("<31I", *values)
    return made + struct.pack(f"<{len(starts)}I", *starts) + parts[0] + parts[1], rows


def main(texts, image, listing, names=None):
    made, rows = image_of(texts.split(","))
    with open(image, "wb") as it:
        it.write(made)
    with open(listing, "w") as it:
        it.write(listing_of(made))
    if names:
        with open(names, "w") as it:
            it.write(names_of(rows))


if __name__ == "__main__":
    main(*sys.argv[1:])
