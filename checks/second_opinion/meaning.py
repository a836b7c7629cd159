"""What an instruction means in a state of a hart, before memory is asked."""

from dataclasses import dataclass

from .arithmetic import extend, holds, operate, unsigned
from .csrs import MACHINE, SUPERVISOR, TSR, TVM, TW, USER, ControlRegisters
from .instructions import decode
from .records import RAM_START
from .short_instructions import decode_short
from .translation import LOAD, STORE

ILLEGAL, BREAKPOINT = 2, 3
MISALIGNED = {LOAD: 4, STORE: 6}
ECALL_CAUSE = {0: 8, 1: 9, 3: 11}


class Arch:
    """The state of a hart that its instructions read and change."""

    def __init__(self, hart, is_wide):
        self.pc = RAM_START
        self.x = [0] * 32
        self.mode = MACHINE
        self.csrs = ControlRegisters(hart, is_wide)

    def set_register(self, number, value):
        """Writes a register; x0 stays 0."""
        if number:
            self.x[number] = value


@dataclass
class Meaning:
    """The effect of one instruction as far as registers alone tell it."""

    instruction: object
    next_pc: int
    kind: str = "Commit"
    cause: int | None = None
    rd: int = 0
    value: int = 0
    address: int = 0
    access: str = ""
    operand: int = 0


def length_of(bits):
    """The length of an instruction in bytes."""
    return 4 if bits & 3 == 3 else 2


def halfwords(bits):
    """The halfwords of an instruction, the lower first."""
    if length_of(bits) == 2:
        return [bits]
    return [bits & 0xFFFF, bits >> 16]


def meaning_of(arch, bits):
    """What the bits mean at the hart's pc."""
    length = length_of(bits)
    instruction = decode(bits) if length == 4 else decode_short(bits)
    meaning = Meaning(instruction, unsigned(arch.pc + length))
    if instruction is None or not is_legal(arch, instruction):
        meaning.cause = ILLEGAL
    elif instruction.form == "ebreak":
        meaning.cause = BREAKPOINT
    elif instruction.form == "ecall":
        meaning.cause = ECALL_CAUSE[arch.mode]
    elif instruction.form in ("load", "store", "lr", "sc", "amo"):
        add_access(arch, meaning)
    elif instruction.form == "csr":
        add_csr_access(arch, meaning)
    else:
        add_result(arch, meaning)
    return meaning


def is_legal(arch, instruction):
    """Whether the instruction is legal in this mode and state."""
    mode, status = arch.mode, arch.csrs.status
    barred_in_supervisor = {"sret": TSR, "wfi": TW, "sfence_vma": TVM}
    if instruction.form == "mret":
        return mode == MACHINE
    if instruction.form in barred_in_supervisor:
        if mode == SUPERVISOR:
            return not status(barred_in_supervisor[instruction.form])
        return mode != USER
    if instruction.form == "csr":
        return arch.csrs.is_accessible(mode, instruction.number, writes_csr(instruction))
    return True


def writes_csr(instruction):
    """Whether a CSR instruction writes; setting or clearing by x0 or 0 does not."""
    return instruction.operation == "write" or instruction.rs1 != 0


def add_access(arch, meaning):
    """Fills in a memory access; a misaligned one raises its cause."""
    instruction = meaning.instruction
    meaning.kind = {"load": "Load", "store": "Store"}.get(instruction.form, "Atomic")
    meaning.rd = instruction.rd
    meaning.access = LOAD if instruction.form in ("load", "lr") else STORE
    meaning.address = unsigned(arch.x[instruction.rs1] + instruction.imm)
    meaning.operand = extend(instruction.width, False, arch.x[instruction.rs2])
    if meaning.address % instruction.width:
        meaning.cause = MISALIGNED[meaning.access]


def add_csr_access(arch, meaning):
    """Fills in the operand of a CSR instruction and the value that it reads."""
    instruction = meaning.instruction
    meaning.rd = instruction.rd
    meaning.operand = (
        instruction.rs1 if instruction.immediate else arch.x[instruction.rs1]
    )


def add_result(arch, meaning):
    """Fills in the result and the next pc of the other instructions."""
    instruction = meaning.instruction
    first, second = arch.x[instruction.rs1], arch.x[instruction.rs2]
    after = meaning.next_pc
    target = unsigned(arch.pc + instruction.imm)
    meaning.rd = instruction.rd if instruction.form != "sfence_vma" else 0
    if instruction.form == "lui":
        meaning.value = instruction.imm
    elif instruction.form == "auipc":
        meaning.value = target
    elif instruction.form == "jal":
        meaning.value, meaning.next_pc = after, target
    elif instruction.form == "jalr":
        target = unsigned(first + instruction.imm) & ~1
        meaning.value, meaning.next_pc = after, target
    elif instruction.form == "branch":
        if holds(instruction.operation, first, second):
            meaning.next_pc = target
    elif instruction.form == "arithmetic":
        meaning.value = operate(instruction.operation, instruction.word, first, second)
    elif instruction.form == "arithmetic immediate":
        meaning.value = operate(
            instruction.operation, instruction.word, first, instruction.imm
        )
    elif instruction.form == "sfence_vma":
        meaning.address = first
    if meaning.rd == 0:
        meaning.value = 0
