"""The client of the remote protocol against a stub of our own: what is sent, and each answer that is wrong.

The packets are those of the examples in GDB's manual, or summed by hand.
"""

from __future__ import annotations

import socket
import threading
import unittest
from typing import Dict, List

from difftest_probes.recorder.machine import StubMachine, integers_of
from difftest_probes.recorder.remote import (
    MOST_MEMORY,
    Register,
    Remote,
    RemoteError,
    checksum,
    frame,
    number_of,
    unframe,
)
from difftest_probes.records import CSR_NAMES

TARGET = b'l<target><xi:include href="core.xml"/><xi:include href="more.xml"/></target>'
CORE = b'l<feature><reg name="zero" bitsize="64"/><reg name="pc" bitsize="64"/></feature>'
MORE = b'l<feature><reg name="priv" bitsize="64"/><reg name="mie" bitsize="32" regnum="70"/>'
MORE += b'<reg name="mtvec" bitsize="64"/></feature>'


class FakeStub(threading.Thread):
    """Answers each question by a table; None closes the connection."""

    def __init__(self, connection: socket.socket, answers: Dict[bytes, bytes]) -> None:
        super().__init__(daemon=True)
        self._connection = connection
        self._answers = answers
        self.asked: List[bytes] = []

    def run(self) -> None:
        received = b""
        while True:
            piece = self._connection.recv(4096)
            if not piece:
                return
            received += piece
            while received.find(b"#") >= 0 and len(received) >= received.find(b"#") + 3:
                start, end = received.find(b"$"), received.find(b"#")
                question, received = received[start + 1 : end], received[end + 3 :]
                self.asked.append(question)
                answer = self._answers.get(question, b"")
                if answer == b"gone":
                    self._connection.close()
                    return
                self._connection.sendall(b"+" + (answer if answer[:1] == b"$" else frame(answer)))


class RemoteCase(unittest.TestCase):
    """A client, and the stub that it talks to."""

    def connect(self, answers: Dict[bytes, bytes]) -> Remote:
        """A client of a stub with these answers."""
        ours, theirs = socket.socketpair()
        ours.settimeout(10)
        self.stub = FakeStub(theirs, answers)
        self.stub.start()
        # In the reverse order: our end first, so that the stub ends.
        self.addCleanup(theirs.close)
        self.addCleanup(self.stub.join)
        self.addCleanup(ours.close)
        return Remote(ours)


class Packets(unittest.TestCase):
    """How a body stands in a packet."""

    def test_frames(self) -> None:
        # O is 4f and K is 4b: together 9a.
        self.assertEqual(frame(b"OK"), b"$OK#9a")
        self.assertEqual(frame(b""), b"$#00")
        # } is 7d; # is 23 and becomes 03: together 80.
        self.assertEqual(frame(b"#"), b"$}\x03#80")
        # Twice 7d, and 5d is 7d without its bit 5.
        self.assertEqual(frame(b"}"), b"$}]#da")
        self.assertEqual(checksum(b"\xff\x02"), 1)

    def test_unframes(self) -> None:
        self.assertEqual(unframe(b"OK"), b"OK")
        self.assertEqual(unframe(b"}\x03a}\x5d"), b"#a}")
        # The example of GDB's manual: "0* " spells 0000.
        self.assertEqual(unframe(b"0* "), b"0000")
        self.assertEqual(unframe(b"x0* y"), b"x0000y")

    def test_refuses_what_is_cut_short(self) -> None:
        for spelled in (b"}", b"0*", b"* "):
            with self.assertRaises(RemoteError):
                unframe(spelled)

    def test_numbers(self) -> None:
        self.assertEqual(number_of(b"0102000000000080"), 0x8000000000000201)
        for wrong in (b"E14", b"xx", b"\xff"):
            with self.assertRaises(RemoteError):
                number_of(wrong)

    def test_integers(self) -> None:
        words = b"".join(b"%02x00000000000000" % number for number in range(33)) + b"aaaa"
        found = integers_of(words)
        self.assertEqual((found.x, found.pc), (tuple(range(32)), 32))
        with self.assertRaises(RemoteError):
            integers_of(words[:-20])


class Questions(RemoteCase):
    """Questions and answers."""

    def test_memory(self) -> None:
        remote = self.connect(
            {b"m80000000,4": b"0102fdff", b"m80000010,1": b"2a", b"M80000000,2:0a0b": b"OK"}
        )
        found = remote.read_memory([(0x80000000, 4), (0x80000010, 1)])
        self.assertEqual(found, [b"\x01\x02\xfd\xff", b"*"])
        remote.write_memory(0x80000000, b"\x0a\x0b")
        self.assertEqual(self.stub.asked[-1], b"M80000000,2:0a0b")

    def test_memory_is_written_in_pieces(self) -> None:
        whole = b"Mf0,%x:%s" % (MOST_MEMORY, b"00" * MOST_MEMORY)
        remote = self.connect({whole: b"OK", b"M%x,1:00" % (0xF0 + MOST_MEMORY): b"OK"})
        remote.write_memory(0xF0, bytes(MOST_MEMORY + 1))
        self.assertEqual(len(self.stub.asked), 2)

    def test_a_read_that_fails_or_is_short(self) -> None:
        remote = self.connect({b"m0,4": b"E14", b"m4,4": b"0102"})
        for address in (0, 4):
            with self.assertRaises(RemoteError):
                remote.read_memory([(address, 4)])

    def test_registers_have_the_numbers_of_the_description(self) -> None:
        answers = {b"qXfer:features:read:target.xml:0,800": TARGET}
        answers[b"qXfer:features:read:core.xml:0,800"] = b"m" + CORE[1:21]
        answers[b"qXfer:features:read:core.xml:14,800"] = b"l" + CORE[21:]
        answers[b"qXfer:features:read:more.xml:0,800"] = MORE
        wanted = {"zero": Register(0, 8), "pc": Register(1, 8), "priv": Register(2, 8)}
        wanted.update(mie=Register(70, 4), mtvec=Register(71, 8))
        self.assertEqual(self.connect(answers).registers(), wanted)

    def test_no_description(self) -> None:
        with self.assertRaises(RemoteError):
            self.connect({}).registers()

    def test_threads(self) -> None:
        remote = self.connect({b"qfThreadInfo": b"mp01.01,p01.02", b"qsThreadInfo": b"l"})
        self.assertEqual(remote.threads(), [b"p01.01", b"p01.02"])

    def test_no_threads(self) -> None:
        with self.assertRaises(RemoteError):
            self.connect({b"qfThreadInfo": b"l"}).threads()

    def test_a_step(self) -> None:
        remote = self.connect({b"vCont;s:p01.02": b"T05thread:p01.02;", b"vCont;s:p01.01": b"W00"})
        remote.step(b"p01.02")
        with self.assertRaises(RemoteError):
            remote.step(b"p01.01")

    def test_a_command_that_is_refused(self) -> None:
        with self.assertRaises(RemoteError):
            self.connect({b"Hg9": b"E22"}).command(b"Hg9")

    def test_many_questions_at_once(self) -> None:
        remote = self.connect({b"p%x" % number: b"%02x" % number for number in range(100)})
        answers = remote.ask_all([b"p%x" % number for number in range(100)])
        self.assertEqual([number_of(answer) for answer in answers], list(range(100)))

    def test_a_wrong_checksum(self) -> None:
        with self.assertRaisesRegex(RemoteError, "checksum is 9a"):
            self.connect({b"?": b"$OK#9b"}).ask(b"?")

    def test_a_stub_that_is_gone(self) -> None:
        with self.assertRaises(RemoteError):
            self.connect({b"?": b"gone"}).ask(b"?")


class Waits(unittest.TestCase):
    """How long an answer is waited for."""

    def setUp(self) -> None:
        self.ours, self.theirs = socket.socketpair()
        self.ours.settimeout(0.02)
        self.addCleanup(self.theirs.close)
        self.addCleanup(self.ours.close)

    def test_an_answer_that_takes_several_waits(self) -> None:
        late = threading.Timer(0.1, self.theirs.sendall, [b"+" + frame(b"OK")])
        late.start()
        self.addCleanup(late.join)
        self.assertEqual(Remote(self.ours, waits=1000).ask(b"?"), b"OK")

    def test_no_answer(self) -> None:
        with self.assertRaisesRegex(RemoteError, "does not answer"):
            Remote(self.ours, waits=3).ask(b"?")


class Machines(RemoteCase):
    """The machine behind a stub."""

    def answers(self, harts: int) -> Dict[bytes, bytes]:
        """Those of a stub whose only registers are the ones that are needed."""
        names = [*CSR_NAMES, "priv", "mhartid"]
        rows = "".join(f'<reg name="{name}" bitsize="64"/>' for name in names)
        answers = {b"Qqemu.PhyMemMode:1": b"OK", b"qXfer:features:read:core.xml:0,800": b"l" + rows.encode()}
        answers[b"qXfer:features:read:target.xml:0,800"] = b'l<xi:include href="core.xml"/>'
        answers[b"qfThreadInfo"] = b"m" + b",".join(b"%02x" % (hart + 1) for hart in range(harts))
        answers[b"qsThreadInfo"] = b"l"
        answers[b"p12"] = b"0000000000000000"
        answers[b"Hg01"] = answers[b"Hg02"] = b"OK"
        return answers

    def test_memory_is_physical(self) -> None:
        StubMachine(self.connect(self.answers(1)), 1)
        self.assertIn(b"Qqemu.PhyMemMode:1", self.stub.asked)

    def test_the_number_of_harts_has_to_be_that(self) -> None:
        with self.assertRaisesRegex(RemoteError, "1 harts, not 2"):
            StubMachine(self.connect(self.answers(1)), 2)

    def test_threads_have_to_be_the_harts(self) -> None:
        with self.assertRaisesRegex(RemoteError, "thread 02 is not hart 1"):
            StubMachine(self.connect(self.answers(2)), 2)

    def test_a_register_that_is_missing(self) -> None:
        answers = self.answers(1)
        answers[b"qXfer:features:read:core.xml:0,800"] = b'l<reg name="mstatus" bitsize="64"/>'
        with self.assertRaisesRegex(RemoteError, "no register medeleg"):
            StubMachine(self.connect(answers), 1)


if __name__ == "__main__":
    unittest.main()
