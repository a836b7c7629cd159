"""Records by the instruction: dtp_retire and dtp_store_through."""

import random
import unittest

from calls import CLOSED, OK, RAM_END, RAM_START, UNLAWFUL, Call, answer, read, run, spell_file, write
# pylint: disable=wrong-import-order
from second_opinion.instructions import DECODERS, Instruction, decode
from second_opinion.report import judge_file
from second_opinion.short_instructions import decode_short

COMMIT, LOAD, STORE, ATOMIC = 1, 5, 6, 7
KINDS = {"load": LOAD, "store": STORE, "lr": ATOMIC, "sc": ATOMIC, "amo": ATOMIC}
GARBAGE = 0xDEAD_BEEF_DEAD_BEEF
PC, PLACE = RAM_START + 0x100, RAM_START + 0x1238

# Bits, and the record that dtp_retire makes of value GARBAGE, at 9, paddr PLACE, wrote 1, stored GARBAGE.
RETIRED = [
    (0x00500093, "commit", [GARBAGE]),                            # addi x1,x0,5
    (0x00500013, "commit", [0]),                                  # addi x0,x0,5
    (0x00208463, "commit", [0]),                                  # beq x1,x2,8
    (0x0FF0000F, "commit", [0]),                                  # fence
    (0x0000100F, "commit", [0]),                                  # fence.i
    (0x30200073, "commit", [0]),                                  # mret
    (0x12000073, "commit", [0]),                                  # sfence.vma
    (0x30002373, "commit", [GARBAGE]),                            # csrrs x6,mstatus,x0
    (0x30001073, "commit", [0]),                                  # csrrw x0,mstatus,x0
    (0x008000EF, "commit", [GARBAGE]),                            # jal x1,8
    (0x0080006F, "commit", [0]),                                  # jal x0,8
    (0x4085, "commit", [GARBAGE]),                                # c.li x1,1
    (0x0001, "commit", [0]),                                      # c.nop
    (0xA021, "commit", [0]),                                      # c.j
    (0x8082, "commit", [0]),                                      # c.jr x1
    (0x9082, "commit", [GARBAGE]),                                # c.jalr x1: x1 is the link
    (0x808A, "commit", [GARBAGE]),                                # c.mv x1,x2
    (0x8C05, "commit", [GARBAGE]),                                # c.sub x8,x9
    (0x0053B503, "load", [GARBAGE, 9, PLACE]),                    # ld x10,5(x7)
    (0x4398, "load", [GARBAGE, 9, PLACE]),                        # c.lw x14,0(x15)
    (0x60A2, "load", [GARBAGE, 9, PLACE]),                        # c.ldsp x1,8(x2)
    (0x00A38023, "store", [PLACE, 0xEF]),                         # sb x10,0(x7)
    (0x00A39023, "store", [PLACE, 0xBEEF]),                       # sh x10,0(x7)
    (0x00A3A023, "store", [PLACE, 0xDEAD_BEEF]),                  # sw x10,0(x7)
    (0x00A3B023, "store", [PLACE, GARBAGE]),                      # sd x10,0(x7)
    (0xC398, "store", [PLACE, 0xDEAD_BEEF]),                      # c.sw x14,0(x15)
    (0xE406, "store", [PLACE, GARBAGE]),                          # c.sdsp x1,8(x2)
    (0x00A3A5AF, "atomic", [GARBAGE, PLACE, 4, 1, 0xDEAD_BEEF]),  # amoadd.w x11,x10,(x7)
    (0x00A3B5AF, "atomic", [GARBAGE, PLACE, 8, 1, GARBAGE]),      # amoadd.d x11,x10,(x7)
]

# Bits of a store, its address, its bytes, and whether it has a Drain.
THROUGH = [
    (0x00A38023, RAM_START, 1, True),
    (0x00A38023, RAM_END - 1, 1, True),
    (0x00A39023, RAM_START + 0x42, 2, True),
    (0x00A3A023, RAM_START + 0x7C, 4, True),
    (0x00A3B023, RAM_END - 8, 8, True),
    (0xC398, RAM_START + 8, 4, True),
    (0xE406, RAM_START + 56, 8, True),
    (0xC006, RAM_START + 4, 4, True),
    # To a device, beyond RAM, and where the address is no multiple of the width.
    (0x00A3B023, RAM_START - 8, 8, False),
    (0x00A38023, 0x1000_0000, 1, False),
    (0x00A3B023, RAM_END, 8, False),
    (0x00A3B023, 2**64 - 8, 8, False),
    (0x00A3B023, RAM_START + 4, 8, False),
    (0x00A3A023, RAM_START + 62, 4, False),
]


def form_of(instruction: Instruction) -> "tuple[int, int, int]":
    """The kind of the record, whether rd is given a value in a Commit, and the bytes of a store."""
    kind = KINDS.get(instruction.form, COMMIT)
    return (kind, int(kind == COMMIT and instruction.rd != 0),
            instruction.width if kind == STORE else 0)


class Instructions(unittest.TestCase):
    """What the writer makes of instructions."""

    def assert_forms(self, decoded: "dict[int, Instruction | None]") -> None:
        """The header's forms are those of the second checker, where it knows the instruction."""
        known = {bits: form_of(each) for bits, each in decoded.items() if each is not None}
        found = {}
        for bits, line in zip(known, run([f"form {bits:#x}" for bits in known])):
            kind, has_rd, store_bytes = map(int, line.split())
            found[bits] = (kind, has_rd if kind == COMMIT else 0, store_bytes)
        self.assertGreater(len(known), 9000)
        self.assertEqual(found, known)

    def test_all_forms_of_16_bits(self) -> None:
        self.assert_forms({bits: decode_short(bits) for bits in range(0x10000) if bits & 3 != 3})

    def test_random_forms_of_32_bits(self) -> None:
        draws = random.Random(2)
        words = [draws.getrandbits(25) << 7 | draws.choice(list(DECODERS)) for _ in range(40_000)]
        # Most fields of an atomic, a shift or a SYSTEM instruction have few values.
        words += [word & 0x01FF_FFFF | draws.randrange(32) << 27 for word in words]
        words += [0x73, 0x00100073, 0x10200073, 0x30200073, 0x10500073]
        words += [0x1200_0073 | draws.getrandbits(10) << 15 for _ in range(100)]
        self.assert_forms({bits: decode(bits) for bits in words})

    def test_retired(self) -> None:
        lines = [f"retire 0 {10 + place} {PC} {bits:#x} {GARBAGE} 9 {PLACE} 1 {GARBAGE}"
                 for place, (bits, _, _) in enumerate(RETIRED)]
        *answers, file = run(["open 1 0 -", *lines, "close"])
        self.assertEqual({answer(line).status for line in answers}, {OK})
        wanted = [Call(kind, 0, 10 + place, [PC, bits, *fields])
                  for place, (bits, kind, fields) in enumerate(RETIRED)]
        self.assertEqual(bytes.fromhex(file), spell_file(1, 0, wanted))

    def test_atomic_that_did_not_write(self) -> None:
        load_reserved, store_conditional = 0x1003A5AF, 0x18A3B5AF
        lines = [f"retire 0 3 {PC} {bits:#x} {value} 9 {PLACE} 0 {GARBAGE}"
                 for bits, value in ((load_reserved, 7), (store_conditional, 1))]
        *_, file = run(["open 1 0 -", *lines, "close"])
        wanted = [Call("atomic", 0, 3, [PC, load_reserved, 7, PLACE, 4, 0, 0]),
                  Call("atomic", 0, 3, [PC, store_conditional, 1, PLACE, 8, 0, 0])]
        self.assertEqual(bytes.fromhex(file), spell_file(1, 0, wanted))

    def test_store_through(self) -> None:
        calls, wanted = [], []
        for bits, place, width, has_drain in THROUGH:
            value = GARBAGE % 2 ** (8 * width)
            calls.append(Call("store_through", 0, 7, [PC, bits, place, GARBAGE]))
            wanted.append(Call("store", 0, 7, [PC, bits, place, value]))
            if has_drain:
                line = bytearray(64)
                line[place % 64:place % 64 + width] = value.to_bytes(width, "little")
                mask = sum(1 << place % 64 + each for each in range(width))
                wanted.append(Call("drain", 0, 7, [place - place % 64, mask, 1, bytes(line)]))
        answers, file = write(1, 0, calls)
        self.assertEqual({each.status for each in answers}, {OK})
        self.assertEqual(file, spell_file(1, 0, wanted))

    def test_store_through_is_of_a_store(self) -> None:
        answers, file = write(1, 0, [Call("store_through", 0, 7, [PC, 0x00500093, PLACE, 1])])
        self.assertEqual([each.status for each in answers], [OK, UNLAWFUL, UNLAWFUL])
        self.assertIn("Store: bits=5243027 (0x500093), must be those of a store", answers[1].problem)
        self.assertEqual(file, spell_file(1, 0, []))
        self.assertEqual(answer(run(["store_through 0 7 0 0x23 0 0"])[0]).status, CLOSED)

    def test_stores_through_pass(self) -> None:
        """A load behind a store that is written as it retires: judged by the second checker."""
        auipc, addi, store, load = 0x00000297, 0x00700393, 0x1072B023, 0x1002B403
        image = b"".join(word.to_bytes(4, "little") for word in (auipc, addi, store, load))
        line = RAM_START + 0x100
        lines = [
            f"retire 0 1 {RAM_START} {auipc} {RAM_START} 0 0 0 0",
            f"retire 0 2 {RAM_START + 4} {addi} 7 0 0 0 0",
            f"store_through 0 3 {RAM_START + 8} {store} {line} 7",
            f"retire 0 4 {RAM_START + 12} {load} 7 4 {line} 0 0",
        ]
        file = read(bytes.fromhex(run(["open 1 0 -", *lines, "close"])[-1]))
        assert file is not None
        failure, cases = judge_file(image, file)
        self.assertIsNone(failure)
        self.assertEqual(len(cases), 5)


if __name__ == "__main__":
    unittest.main()
