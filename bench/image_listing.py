#!/usr/bin/env python3
"""Lists an image by GNU's disassembler: what `svcsim list` is held against.

    bench/image_listing.py IMAGE LISTING

Knows images of both versions. Needs Debian's binutils-riscv64-unknown-elf.
"""
import re
import struct
import subprocess
import sys
import tempfile

TOOLS = "riscv64-unknown-elf-"
BRANCHES = "beq bne blt bge bltu bgeu".split()
NAMES = BRANCHES + """lui auipc jal jalr lb lh lw lbu lhu sb sh sw addi slti sltiu xori ori andi slli srli srai
    add sub sll slt sltu xor srl sra or and ecall ebreak""".split()
SHIFTS = "slli srli srai".split()
NOTHING = 0x13
DATA = 0x00100000


def tool(name, *words):
    return subprocess.run([TOOLS + name, *words], check=True, capture_output=True, text=True).stdout


def is_whole(word):
    """Whether the lowest bits of a word are those of an instruction of 32 bits."""
    return word % 4 == 3 and word % 32 != 31


def disassembled(text):
    """The name and the operands of each word, by GNU's disassembler. A word of another length is shown to it as an `addi`."""
    with tempfile.TemporaryDirectory() as room:
        with open(f"{room}/a.s", "w") as it:
            it.writelines(f".word {word if is_whole(word) else NOTHING}\n" for word in text)
        tool("as", "-march=rv32i", "-mabi=ilp32", "-o", f"{room}/a.o", f"{room}/a.s")
        lines = tool("objdump", "-D", "-z", "-j", ".text", "-M", "numeric,no-aliases", f"{room}/a.o").splitlines()
    found = [it.split() for it in lines if re.match(r" *[0-9a-f]+:\t", it)]
    return [(name, operands[0].split(",") if operands else []) for _, _, name, *operands in found]


def label(address):
    return f"at_{address:08x}"


def target(name, operands):
    """The address to which a branch or a jump leads, from the last operand that the disassembler gives it."""
    return int(operands[-1], 16) if name in BRANCHES or name == "jal" else None


def shown(address, word, name, operands, labels):
    """A word as a listing shows it: a branch by the label of its target, or the distance to a target that has none."""
    if name not in NAMES or not is_whole(word) or name in SHIFTS and int(operands[-1], 0) > 31:  # (it knows RV64's shifts)
        return f".word {word}"
    to = target(name, operands)
    if to is not None:
        far = (to - address + 2**31) % 2**32 - 2**31
        operands = [*operands[:-1], label(to) if to in labels else f". {'-' if far < 0 else '+'} {abs(far)}"]
    elif name in ("lui", "auipc", "slli", "srli", "srai"):
        operands = [*operands[:-1], str(int(operands[-1], 0))]
    return f"{name} {', '.join(operands)}".rstrip()


def head_of(version, own, start, registers):
    lines = [f".svc_version {version}"] + [f".svc_limit {own}"] * (version == 1) + [f".svc_start {label(start)}"]
    return lines + [f".svc_register x{n + 1}, {value}" for n, value in enumerate(registers) if value]


def text_of(text, entries):
    """The lines of the text; `entries` has what follows the mark of each entry."""
    code = list(zip(text, disassembled(text)))
    targets = {target(*said) for word, said in code if is_whole(word)}
    labels = {at for at in range(0, 4 * len(text), 4) if at in entries or at in targets}
    lines = []
    for at, (word, said) in zip(range(0, 4 * len(text), 4), code):
        lines += [f"{label(at)}:"] * (at in labels)
        lines += [f".svc_entry{entries[at]}"] if at in entries else []
        lines.append(f"{shown(at, word, *said, labels)}\t# 0x{at:08x} {word:08x}")
    return lines


def data_of(words, read_only):
    lines = [f".word {word}\t# 0x{DATA + 4 * n:08x}" for n, word in enumerate(words)]
    return lines if read_only is None else [*lines[:read_only], ".svc_readonly", *lines[read_only:]]


def listing_of(image):
    _, version, entries, text, words, own, start = struct.unpack_from("<4sHHIIII", image)
    numbers = iter(struct.unpack_from(f"<{(len(image) - 24) // 4}I", image, 24))
    some = lambda count: [next(numbers) for _ in range(count)]
    registers, entries = some(31), some(entries)
    limits = [f" {limit}" for limit in some(len(entries))] if version == 2 else [""] * len(entries)
    text, words = some(text), some(words)
    lines = head_of(version, own, start, registers) + text_of(text, dict(zip(entries, limits)))
    return "\n".join([*lines, ".data", *data_of(words, own if version == 2 else None), ""])


def main(image, listing):
    with open(image, "rb") as it:
        made = listing_of(it.read())
    with open(listing, "w") as it:
        it.write(made)


if __name__ == "__main__":
    main(*sys.argv[1:])
