"""The names of instructions in assembly, without their operands."""

from __future__ import annotations

from .decoding import Instruction

_LOADS = {
    (1, True): "lb",
    (2, True): "lh",
    (4, True): "lw",
    (8, True): "ld",
    (1, False): "lbu",
    (2, False): "lhu",
    (4, False): "lwu",
}
_STORES = {1: "sb", 2: "sh", 4: "sw", 8: "sd"}
_PLAIN = {"fence_i": "fence.i", "sfence": "sfence.vma"}
_CSRS = {"write": "csrrw", "set": "csrrs", "clear": "csrrc"}


def _arithmetic(instruction: Instruction) -> str:
    name = instruction.op
    if instruction.group == "immediate":
        name = "sltiu" if name == "sltu" else name + "i"
    return name + ("w" if instruction.word else "")


def mnemonic(instruction: Instruction) -> str:
    """The name of an instruction."""
    group = instruction.group
    if group == "load":
        return _LOADS[instruction.width, instruction.signed]
    if group == "store":
        return _STORES[instruction.width]
    if group == "branch":
        return "b" + instruction.op
    if group in ("register", "immediate"):
        return _arithmetic(instruction)
    if group == "atomic":
        name = instruction.op if instruction.op in ("lr", "sc") else "amo" + instruction.op
        return f"{name}.{'w' if instruction.width == 4 else 'd'}"
    if group == "csr":
        return _CSRS[instruction.op] + ("i" if instruction.word else "")
    return _PLAIN.get(group, group)
