#!/usr/bin/env python3
"""Compares the decoder and the expander with GNU objdump.

usage: instruction_tables.py OBJDUMP DT_TABLES

DT_TABLES is the built program of crates/dt_tables. It is run on all 65,536 16-bit patterns and on some
hundred thousand 32-bit ones: every opcode, funct3 and funct7, edges of every field, every CSR number,
every expansion of a 16-bit pattern, and words from a seeded generator. What it prints is turned into
the text that objdump prints (`-M no-aliases,numeric`), and the two texts must be equal, except for the
differences that `DIFFERENCES` names. Each of those must be met at least once.
"""

import random
import re
import struct
import subprocess
import sys
import tempfile

MASK_64 = 2**64 - 1

# Where this project's profile and objdump differ, by the name under which they are counted.
#
# Reserved 16-bit patterns are none in both: C.ADDIW, C.LWSP and C.LDSP with rd = 0, C.JR of x0, C.LUI
# with the immediate 0, C.ADDI4SPN with the immediate 0 (but for the pattern 0), quadrant 00 with funct3
# 100, and quadrant 01 with funct3 100, bits 12:10 of 111 and bit 6 set.
DIFFERENCES = {
    "float": "floats are outside the profile: none here, an F or D instruction there",
    "return": "URET, HRET and DRET are outside the profile (user interrupts, an old draft, debugging): none here",
    "old fence": "SFENCE.VM is of an old draft of the privileged manual: none here",
    "unimp": "CSRRW of cycle by x0 to x0: objdump calls it unimp, here it is the CSR instruction",
    "fence fields": "FENCE ignores rd and rs1 and takes any fm: objdump wants 0, or TSO whole",
    "fence.i fields": "FENCE.I ignores all other fields: objdump wants 0",
    "zero step": "C.ADDI16SP with the immediate 0 is reserved: none here, objdump knows no such rule",
    "zero pattern": "the 16-bit pattern 0 is defined as illegal: objdump calls it c.unimp",
    "long word": "bits 4:0 of 11111 begin a longer instruction: none here, not asked there",
    "short word": "low bits other than 11 begin a 16-bit instruction: none here, not asked there",
}

# Hints among the 16-bit forms stand for what their row says: C.NOP with an immediate, C.ADDI with the
# immediate 0, C.LI, C.LUI, C.MV, C.ADD and C.SLLI to x0, and shifts by 0. objdump writes all but the
# last as the form itself, and these as forms of 64 bits of amount.
HINTS = {
    "c.slli64": lambda rd: f"slli x{rd},x{rd},0x0",
    "c.srli64": lambda rd: f"srli x{rd},x{rd},0x0",
    "c.srai64": lambda rd: f"srai x{rd},x{rd},0x0",
}


def sign_extended(value, width):
    return value - (1 << width) if value >> (width - 1) & 1 else value


def signed_64(value):
    return sign_extended(value & MASK_64, 64)


# ---- what the program says, as objdump writes it


ALU_NAMES = {name: name.lower() for name in (
    "Add Sub Sll Slt Sltu Xor Srl Sra Or And Mul Mulh Mulhsu Mulhu Div Divu Rem Remu".split())}
IMMEDIATE_NAMES = {"Add": "addi", "Slt": "slti", "Sltu": "sltiu", "Xor": "xori", "Or": "ori",
                   "And": "andi", "Sll": "slli", "Srl": "srli", "Sra": "srai"}
ACCESS_NAMES = {1: "b", 2: "h", 4: "w", 8: "d"}
ORDER = {(False, False): "", (True, False): ".aq", (False, True): ".rl", (True, True): ".aqrl"}
CSR_NAMES = {"Write": "csrrw", "Set": "csrrs", "Clear": "csrrc"}
PLAIN = {"Ecall": "ecall", "Ebreak": "ebreak", "Sret": "sret", "Mret": "mret", "Wfi": "wfi",
         "FenceI": "fence.i"}


def access_set(bits):
    return "".join(c for c, bit in zip("iorw", (8, 4, 2, 1)) if bits & bit) or "unknown"


def parse(text):
    """None, or the variant's name and its fields, of `Some(Name { field: value, .. })`."""
    if text == "None":
        return None
    match = re.fullmatch(r"Some\((\w+)(?: \{ (.*) \})?\)", text)
    if not match:
        raise ValueError(f"not understood: {text}")
    fields = {}
    for part in (match.group(2) or "").split(", "):
        if part:
            key, value = part.split(": ")
            fields[key] = {"true": True, "false": False}.get(value) if value in ("true", "false") else (
                int(value) if value.isdigit() else value)
    return match.group(1), fields


def text_of(instr, at, csr_name):
    """The instruction at an address as objdump writes it."""
    name, f = instr
    if name in PLAIN:
        return PLAIN[name]
    target = f"0x{(at + f['imm']) & MASK_64:x}" if name in ("Jal", "Branch") else None
    if name in ("Lui", "Auipc"):
        assert f["imm"] & 0xfff == 0
        return f"{name.lower()} x{f['rd']},0x{f['imm'] >> 12 & 0xfffff:x}"
    if name == "Jal":
        return f"jal x{f['rd']},{target}"
    if name == "Jalr":
        return f"jalr x{f['rd']},{signed_64(f['imm'])}(x{f['rs1']})"
    if name == "Branch":
        return f"b{f['cond'].lower()} x{f['rs1']},x{f['rs2']},{target}"
    if name == "Load":
        suffix = ACCESS_NAMES[f["width"]] + ("" if f["signed"] else "u")
        return f"l{suffix} x{f['rd']},{signed_64(f['imm'])}(x{f['rs1']})"
    if name == "Store":
        return f"s{ACCESS_NAMES[f['width']]} x{f['rs2']},{signed_64(f['imm'])}(x{f['rs1']})"
    word = "w" if f.get("word") else ""
    if name == "AluImm":
        imm = f"0x{f['imm']:x}" if f["op"] in ("Sll", "Srl", "Sra") else signed_64(f["imm"])
        return f"{IMMEDIATE_NAMES[f['op']]}{word} x{f['rd']},x{f['rs1']},{imm}"
    if name == "Alu":
        return f"{ALU_NAMES[f['op']]}{word} x{f['rd']},x{f['rs1']},x{f['rs2']}"
    if name == "Fence":
        if (f["fm"], f["pred"], f["succ"]) == (8, 3, 3):
            return "fence.tso"
        return f"fence {access_set(f['pred'])},{access_set(f['succ'])}"
    if name in ("Lr", "Sc", "Amo"):
        stem = f"amo{f['op'].lower()}" if name == "Amo" else name.lower()
        mnemonic = f"{stem}.{ACCESS_NAMES[f['width']]}{ORDER[f['aq'], f['rl']]}"
        data = "" if name == "Lr" else f"x{f['rs2']},"
        return f"{mnemonic} x{f['rd']},{data}(x{f['rs1']})"
    if name == "Csr":
        source = f"{f['source']}" if f["immediate"] else f"x{f['source']}"
        suffix = "i" if f["immediate"] else ""
        return f"{CSR_NAMES[f['op']]}{suffix} x{f['rd']},{csr_name(f['number'])},{source}"
    if name == "SfenceVma":
        return f"sfence.vma x{f['rs1']},x{f['rs2']}"
    raise ValueError(name)


# ---- what objdump says


def disassemble(objdump, patterns, size):
    """The text of each pattern; None where objdump knows no instruction."""
    with tempfile.NamedTemporaryFile(suffix=".bin") as file:
        for pattern in patterns:
            file.write(struct.pack("<H" if size == 2 else "<I", pattern))
        file.flush()
        run = subprocess.run(
            [objdump, "-D", "-z", "-b", "binary", "-m", "riscv:rv64", "-M", "no-aliases,numeric",
             file.name], capture_output=True, text=True, check=True)
    texts = {}
    for line in run.stdout.splitlines():
        match = re.match(r"\s*([0-9a-f]+):\s+([0-9a-f]+)\s+(.*)$", line)
        if match:
            text = re.sub(r"\s+#.*$", "", match.group(3)).strip()
            texts[int(match.group(1), 16)] = None if text.startswith(".") else " ".join(text.split())
    if sorted(texts) != [size * k for k in range(len(patterns))]:
        raise ValueError("objdump left out some of the patterns")
    return [texts[size * k] for k in range(len(patterns))]


def expanded_text(text):
    """The text of the 32-bit instruction that objdump's 16-bit one stands for (chapter 16)."""
    mnemonic, _, operands = text.partition(" ")
    parts = operands.split(",") if operands else []
    rd = parts[0] if parts else None
    if mnemonic in HINTS:
        return HINTS[mnemonic](int(rd[1:]))
    stem = mnemonic[2:]
    if stem == "nop":
        return f"addi x0,x0,{parts[0] if parts else 0}"
    if stem in ("addi4spn",):
        return f"addi {operands}"
    if stem in ("lw", "ld", "sw", "sd"):
        return f"{stem} {operands}"
    if stem in ("lwsp", "ldsp", "swsp", "sdsp"):
        return f"{stem[:2]} {operands}"
    if stem in ("addi", "addiw", "andi", "srli", "srai", "slli", "sub", "xor", "or", "and", "subw",
                "addw", "add"):
        return f"{stem} {rd},{rd},{parts[1]}"
    if stem == "addi16sp":
        return f"addi x2,x2,{parts[1]}"
    if stem == "li":
        return f"addi {rd},x0,{parts[1]}"
    if stem == "lui":
        return f"lui {operands}"
    if stem == "j":
        return f"jal x0,{operands}"
    if stem in ("beqz", "bnez"):
        return f"{stem[:3]} {rd},x0,{parts[1]}"
    if stem == "jr":
        return f"jalr x0,0({rd})"
    if stem == "jalr":
        return f"jalr x1,0({rd})"
    if stem == "mv":
        return f"add {rd},x0,{parts[1]}"
    if stem == "ebreak":
        return "ebreak"
    raise ValueError(f"unknown form: {text}")


# ---- the patterns


def words():
    draw = random.Random(20)
    made = set()

    def add(word):
        made.add(word & 0xffff_fffc | 3)

    for opcode in range(32):
        for funct3 in range(8):
            for funct7 in range(128):
                base = funct7 << 25 | funct3 << 12 | opcode << 2
                add(base)
                add(base | draw.getrandbits(13) << 12 & 0x01ff_8000 | draw.getrandbits(5) << 7)
        # one and two bits, set and cleared
        for first in range(7, 32):
            for second in range(first, 32):
                bits = 1 << first | 1 << second
                add(bits | opcode << 2)
                add(bits ^ 0xffff_ff80 | opcode << 2)
        for _ in range(3000):
            add(draw.getrandbits(25) << 7 | opcode << 2)
    # registers and immediates at their edges
    edges = [0, 1, 2, 8, 15, 16, 30, 31]
    for opcode in range(32):
        for funct3 in range(8):
            for rd in edges:
                for rs1 in edges:
                    upper = draw.choice([0, 1, 0x7ff, 0x800, 0xfff, 0x400, 0x20, 0x1f, 0xaaa, 0x555])
                    add(upper << 20 | rs1 << 15 | funct3 << 12 | rd << 7 | opcode << 2)
    # every CSR number, and every word of SYSTEM with funct3 000
    for number in range(4096):
        for funct3 in range(8):
            add(number << 20 | draw.getrandbits(5) << 15 | funct3 << 12 | draw.getrandbits(5) << 7 | 0x73)
        add(number << 20 | 0x73)
        add(number << 20 | 1 << draw.randrange(15, 20) | 0x73)
        add(number << 20 | 1 << draw.randrange(7, 12) | 0x73)
    # every atomic operation with and without its second register
    for funct5 in range(32):
        for order in range(4):
            for rs2 in (0, 1, 16, 31):
                for funct3 in range(8):
                    add(funct5 << 27 | order << 25 | rs2 << 20 | draw.getrandbits(5) << 15
                        | funct3 << 12 | draw.getrandbits(5) << 7 | 0x2f)
    for _ in range(60_000):
        add(draw.getrandbits(32))
    return sorted(made)


def run_program(program, lines):
    run = subprocess.run([program], input="".join(line + "\n" for line in lines),
                         capture_output=True, text=True, check=True)
    answers = run.stdout.splitlines()
    if len(answers) != len(lines):
        raise ValueError(f"{len(lines)} patterns in, {len(answers)} lines out")
    return answers


# ---- the comparison


class Comparison:
    def __init__(self):
        self.met = dict.fromkeys(DIFFERENCES, 0)
        self.hints = dict.fromkeys(HINTS, 0)
        self.equal = 0
        self.none = 0
        self.faults = []
        self.csr_names = {}

    def fault(self, pattern, ours, theirs):
        self.faults.append(f"{pattern}: here {ours}, objdump {theirs}")

    def learn_csr(self, number, text):
        """objdump prints most CSRs by name: each number must have one name, and each name one number."""
        name = text.split(",")[1]
        self.csr_names.setdefault(number, name)

    def check_csr_names(self):
        if len(self.csr_names) != 4096 or len(set(self.csr_names.values())) != 4096:
            self.faults.append("the CSR numbers do not have names of their own")
        known = {0x300: "mstatus", 0x180: "satp", 0x341: "mepc", 0xc00: "cycle", 0xf14: "mhartid",
                 0x7ff: "0x7ff", 0xfff: "0xfff"}
        for number, name in known.items():
            if self.csr_names.get(number) != name:
                self.faults.append(f"CSR {number:x} is {self.csr_names.get(number)}, not {name}")

    def word_difference(self, word, instr, theirs):
        opcode, funct3 = word & 0x7f, word >> 12 & 7
        if instr is None and theirs is not None:
            mnemonic = theirs.split()[0]
            if mnemonic.startswith("f") and not mnemonic.startswith("fence"):
                return "float"
            if theirs in ("uret", "hret", "dret"):
                return "return"
            if mnemonic == "sfence.vm":
                return "old fence"
        if theirs == "unimp" and word == 0xc000_1073 and instr[0] == "Csr":
            return "unimp"
        if instr is not None and theirs is None and opcode == 0x0f:
            if funct3 == 0 and instr[0] == "Fence" and (
                    word >> 7 & 0x1f or word >> 15 & 0x1f or word >> 28):
                return "fence fields"
            if funct3 == 1 and instr[0] == "FenceI" and word != 0x0000_100f:
                return "fence.i fields"
        return None

    def compare_word(self, word, at, answer, theirs):
        pattern, _, said = answer.partition(" ")
        assert pattern == f"{word:08x}", answer
        instr = parse(said)
        if instr is not None and instr[0] == "Csr" and theirs is not None and theirs.startswith("csr"):
            self.learn_csr(instr[1]["number"], theirs)
        ours = None if instr is None else text_of(instr, at, self.csr_names.get)
        if ours == theirs:
            self.equal += ours is not None
            self.none += ours is None
            return
        name = self.word_difference(word, instr, theirs)
        if name is None:
            self.fault(pattern, ours, theirs)
        else:
            self.met[name] += 1

    def compare_none(self, word, answer, name):
        if answer == f"{word:08x} None":
            self.met[name] += 1
        else:
            self.fault(f"{word:08x}", answer, "not asked")

    def compare_half(self, half, at, answer, theirs):
        pattern, _, said = answer.partition(" ")
        assert pattern == f"{half:04x}", answer
        if said == "None":
            if theirs is None:
                self.none += 1
            elif half == 0:
                self.met["zero pattern"] += 1
            elif theirs == "c.addi16sp x2,0":
                self.met["zero step"] += 1
            elif theirs.startswith(("c.fld", "c.fsd")):
                self.met["float"] += 1
            else:
                self.fault(pattern, None, theirs)
            return
        instr = parse(said.partition(" ")[2])
        ours = None if instr is None else text_of(instr, at, self.csr_names.get)
        if theirs is not None and ours == expanded_text(theirs):
            self.equal += 1
            if theirs.split()[0] in self.hints:
                self.hints[theirs.split()[0]] += 1
        else:
            self.fault(pattern, ours, theirs)


def main():
    objdump, program = sys.argv[1:]
    comparison = Comparison()

    halves = [half for half in range(65_536) if half & 3 != 3]
    answers = run_program(program, [f"{half:04x}" for half in range(65_536)])
    for half in range(65_536):
        if half & 3 == 3 and answers[half] != f"{half:04x} None":
            comparison.fault(f"{half:04x}", answers[half], "no 16-bit pattern")
    for k, theirs in enumerate(disassemble(objdump, halves, 2)):
        comparison.compare_half(halves[k], 2 * k, answers[halves[k]], theirs)
    expansions = {int(a.split()[1], 16) for a in answers if not a.endswith(" None")}

    patterns = sorted(set(words()) | expansions)
    asked = [word for word in patterns if word & 0x1f != 0x1f]
    for k, (answer, theirs) in enumerate(zip(
            run_program(program, [f"{word:08x}" for word in asked]),
            disassemble(objdump, asked, 4))):
        comparison.compare_word(asked[k], 4 * k, answer, theirs)

    draw = random.Random(16)
    longer = [word for word in patterns if word & 0x1f == 0x1f]
    shorter = [word for word in (draw.getrandbits(32) for _ in range(4000)) if word & 3 != 3]
    for name, listed in (("long word", longer), ("short word", shorter)):
        for word, answer in zip(listed, run_program(program, [f"{word:08x}" for word in listed])):
            comparison.compare_none(word, answer, name)

    comparison.check_csr_names()
    for name, count in (comparison.met | comparison.hints).items():
        if count == 0:
            comparison.faults.append(f"nothing met the difference named: {name}")
    print(f"{len(halves)} patterns of 16 bits and {len(asked)} of 32 bits: {comparison.equal} alike, "
          f"{comparison.none} that neither knows")
    for name, count in comparison.met.items():
        print(f"  {count} {name}: {DIFFERENCES[name]}")
    for name, count in comparison.hints.items():
        print(f"  {count} hints that objdump writes as {name}")
    for fault in comparison.faults[:40]:
        print(f"FAULT {fault}")
    if comparison.faults:
        print(f"{len(comparison.faults)} faults")
        sys.exit(1)


if __name__ == "__main__":
    main()
