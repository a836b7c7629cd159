"""The architectural state of one hart and the meaning of one instruction."""

from difftest_probes.isa import csrs as control
from difftest_probes.isa.compressed import meaning_of
from difftest_probes.isa.fields import (BREAKPOINT, ECALL_FROM_USER, ILLEGAL, LOAD_MISALIGNED, MACHINE, RAM_START,
                     STORE_MISALIGNED, SUPERVISOR, USER, wrap)
from .arithmetic import alu, compare


class Plan:
    """What an instruction asks for: a sort, the operands, and where the hart goes next."""

    __slots__ = ("sort", "rd", "value", "next", "va", "width", "signed", "op", "aq", "rl",
                 "number", "reads", "writes", "ww", "wr", "rr", "page", "all", "cause", "tval")

    def __init__(self, sort, next_pc=0, **rest):
        self.sort = sort
        self.next = next_pc
        for name, value in rest.items():
            setattr(self, name, value)


def raises(cause, tval):
    """The plan of an instruction that traps by itself."""
    return Plan("raise", cause=cause, tval=tval)


class Hart:
    """Registers, control registers, mode and pc of one hart."""

    def __init__(self, number, wide=False):
        self.number = number
        self.pc = RAM_START
        self.x = [0] * 32
        self.mode = MACHINE
        self.csrs = control.Csrs(wide)

    def set_register(self, rd, value):
        """Writes a register other than register 0."""
        if rd:
            self.x[rd] = wrap(value)

    def trap(self, cause, tval):
        """Enters a trap from the present pc."""
        self.mode, self.pc = self.csrs.enter_trap(self.mode, self.pc, cause, tval)

    def plan(self, bits):
        """The plan of the fetched bits at the present pc."""
        instruction = meaning_of(bits)
        if instruction is None:
            return raises(ILLEGAL, bits)
        length = 4 if bits & 3 == 3 else 2
        following = wrap(self.pc + length)
        plan = _PLANNERS[instruction.group](self, instruction, following)
        if plan is None:
            return raises(ILLEGAL, bits)
        return plan

    def new_csr_value(self, plan, old):
        """The value that a CSR instruction writes over `old`."""
        if plan.op == "write":
            return plan.value
        return old | plan.value if plan.op == "set" else old & ~plan.value

    def go_back(self, plan):
        """Does a return instruction."""
        leave = self.csrs.leave_machine if plan.op == "mret" else self.csrs.leave_supervisor
        self.mode, self.pc = leave()


def _done(following, rd, value):
    return Plan("done", following, rd=rd, value=wrap(value) if rd else 0)


def _upper(hart, i, following):
    return _done(following, i.rd, i.imm if i.group == "lui" else hart.pc + i.imm)


def _jump(hart, i, following):
    if i.group == "jal":
        target = hart.pc + i.imm
    else:
        target = (hart.x[i.rs1] + i.imm) & ~1
    return _done(wrap(target), i.rd, following)


def _branch(hart, i, following):
    taken = compare(i.op, hart.x[i.rs1], hart.x[i.rs2])
    return _done(wrap(hart.pc + i.imm) if taken else following, 0, 0)


def _calculate(hart, i, following):
    second = hart.x[i.rs2] if i.group == "register" else i.imm
    return _done(following, i.rd, alu(i.op, i.word, hart.x[i.rs1], second))


def _memory(hart, i, following):
    va = wrap(hart.x[i.rs1] + i.imm)
    if va % i.width:
        return raises(LOAD_MISALIGNED if i.group == "load" else STORE_MISALIGNED, va)
    if i.group == "load":
        return Plan("load", following, va=va, width=i.width, signed=i.signed, rd=i.rd)
    low = hart.x[i.rs2] & ((1 << 8 * i.width) - 1)
    return Plan("store", following, va=va, width=i.width, value=low)


def _atomic(hart, i, following):
    va = hart.x[i.rs1]
    if va % i.width:
        return raises(LOAD_MISALIGNED if i.op == "lr" else STORE_MISALIGNED, va)
    return Plan("atomic", following, va=va, width=i.width, op=i.op, aq=i.aq, rl=i.rl, rd=i.rd,
                value=hart.x[i.rs2])


def _csr(hart, i, following):
    reads = i.op != "write" or i.rd != 0
    writes = i.op == "write" or i.rs1 != 0
    csrs, mode = hart.csrs, hart.mode
    if reads and csrs.read(mode, hart.number, i.number) is None:
        return None
    if writes and not csrs.may_write(mode, i.number):
        return None
    operand = i.rs1 if i.word else hart.x[i.rs1]
    return Plan("csr", following, number=i.number, op=i.op, value=operand, reads=reads,
                writes=writes, rd=i.rd)


def _fence(hart, i, following):
    before, after = i.rs1, i.rs2
    read_before, write_before = bool(before & 2), bool(before & 1)
    read_after, write_after = bool(after & 2), bool(after & 1)
    plain = not (i.imm == 8 and before == 3 and after == 3)
    return Plan("fence", following, ww=write_before and write_after,
                wr=write_before and read_after and plain, rr=read_before and read_after)


def _sfence(hart, i, following):
    if hart.mode == USER or hart.mode == SUPERVISOR and hart.csrs["mstatus"] & control.TVM:
        return None
    everything = i.rs1 == 0 and i.rs2 == 0
    page = hart.x[i.rs1] >> 12 if i.rs1 and i.rs2 == 0 else None
    return Plan("sfence", following, all=everything, page=page)


def _return(hart, i, following):
    if i.group == "mret":
        allowed = hart.mode == MACHINE
    else:
        allowed = hart.mode == MACHINE or (
            hart.mode == SUPERVISOR and not hart.csrs["mstatus"] & control.TSR)
    return Plan("return", op=i.group) if allowed else None


def _wait(hart, i, following):
    if hart.mode == USER or hart.mode == SUPERVISOR and hart.csrs["mstatus"] & control.TW:
        return None
    return _done(following, 0, 0)


def _call(hart, i, following):
    return raises(ECALL_FROM_USER + hart.mode, 0)


def _break(hart, i, following):
    return raises(BREAKPOINT, hart.pc)


_PLANNERS = {
    "lui": _upper, "auipc": _upper, "jal": _jump, "jalr": _jump, "branch": _branch,
    "immediate": _calculate, "register": _calculate, "load": _memory, "store": _memory,
    "atomic": _atomic, "csr": _csr, "fence": _fence, "sfence": _sfence,
    "fence_i": lambda hart, i, following: Plan("fence_i", following),
    "mret": _return, "sret": _return, "wfi": _wait, "ecall": _call, "ebreak": _break,
}
