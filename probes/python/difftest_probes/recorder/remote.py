"""A client of the protocol by which debuggers talk to a stub: GDB's remote serial protocol.

It has what the recorder needs: packets with their checksums, questions and answers, the registers of the
stub's target description, memory, and a step of one thread.
"""

from __future__ import annotations

import re
import socket
from typing import Dict, List, NamedTuple, Tuple

from ..writer import ProbeError

# The stub's own bound is some 4,000 characters in a packet; memory takes two for a byte.
MOST_MEMORY = 1024
_ESCAPE, _ESCAPED = 0x7D, 0x20
_REPEAT, _FEWEST_REPEATS = 0x2A, 29
_REGISTER = re.compile(r"<reg\b([^>]*)>")
_INCLUDE = re.compile(r'<xi:include\b[^>]*\bhref="([^"]*)"')
_ATTRIBUTE = re.compile(r'(\w+)="([^"]*)"')
_SENT_AT_ONCE = 32
# An answer is waited for by parts, each as long as the connection's timeout. Where the machine stands still
# for a while, one part is lost by it and not the whole wait.
MOST_WAITS = 60


class RemoteError(ProbeError):
    """The stub is gone, or it answers something that the protocol does not have."""


class Register(NamedTuple):
    """A register of the target: its number in the protocol, and its bytes."""

    number: int
    size: int


def checksum(body: bytes) -> int:
    """The sum of a packet's bytes, modulo 256."""
    return sum(body) & 0xFF


def frame(body: bytes) -> bytes:
    """A packet around a body in which the special characters are escaped."""
    spelled = bytearray()
    for byte in body:
        if byte in b"#$}*":
            spelled += bytes((_ESCAPE, byte ^ _ESCAPED))
        else:
            spelled.append(byte)
    return b"$%s#%02x" % (bytes(spelled), checksum(spelled))


def unframe(spelled: bytes) -> bytes:
    """The body that stands between `$` and `#`, without escapes and repeats."""
    if _ESCAPE not in spelled and _REPEAT not in spelled:
        return spelled
    body = bytearray()
    at = 0
    while at < len(spelled):
        byte = spelled[at]
        if byte in (_ESCAPE, _REPEAT) and at + 1 == len(spelled) or byte == _REPEAT and not body:
            raise RemoteError("the stub sent a packet that is cut short")
        if byte == _ESCAPE:
            body.append(spelled[at + 1] ^ _ESCAPED)
        elif byte == _REPEAT:
            body += bytes((body[-1],)) * (spelled[at + 1] - _FEWEST_REPEATS)
        else:
            body.append(byte)
        at += 2 if byte in (_ESCAPE, _REPEAT) else 1
    return bytes(body)


class Remote:
    """A connection to a stub. Each question is answered before the next one, or a batch of them is."""

    def __init__(self, connection: socket.socket, waits: int = MOST_WAITS) -> None:
        self._connection = connection
        self._waits = waits
        self._received = bytearray()
        # The acknowledgement of what was received last goes out with the next question.
        self._owed = b""

    def _more(self) -> None:
        for _ in range(self._waits):
            try:
                piece = self._connection.recv(65536)
            except socket.timeout:
                continue
            except OSError as fault:
                raise RemoteError(f"the stub is gone: {fault.strerror}") from None
            if not piece:
                raise RemoteError("the stub has closed the connection")
            self._received += piece
            return
        raise RemoteError("the stub does not answer")

    def _send(self, data: bytes) -> None:
        try:
            self._connection.sendall(data)
        except OSError as fault:
            raise RemoteError(f"the stub is gone: {fault.strerror}") from None

    def _receive(self) -> bytes:
        """The body of the next packet."""
        while True:
            start = self._received.find(b"$")
            end = self._received.find(b"#", start) if start >= 0 else -1
            if end >= 0 and end + 2 < len(self._received):
                break
            self._more()
        spelled = bytes(self._received[start + 1 : end])
        stated = bytes(self._received[end + 1 : end + 3])
        del self._received[: end + 3]
        if b"%02x" % checksum(spelled) != stated.lower():
            raise RemoteError(f"a packet's checksum is {checksum(spelled):02x}, and it says {stated!r}")
        return unframe(spelled)

    def ask_all(self, questions: List[bytes]) -> List[bytes]:
        """The answers to questions, which are sent together: the stub reads them one after another."""
        answers: List[bytes] = []
        for start in range(0, len(questions), _SENT_AT_ONCE):
            part = questions[start : start + _SENT_AT_ONCE]
            self._send(self._owed + b"".join(frame(question) for question in part))
            answers += [self._receive() for _ in part]
            self._owed = b"+"
        return answers

    def ask(self, question: bytes) -> bytes:
        """The answer to a question. An empty one says that the stub does not know the question."""
        return self.ask_all([question])[0]

    def command(self, question: bytes) -> None:
        """A question whose answer has to be OK."""
        answer = self.ask(question)
        if answer != b"OK":
            raise RemoteError(f"the stub answers {answer!r} to {question!r}")

    def _document(self, name: str) -> str:
        """A document of the target description."""
        text = b""
        while True:
            piece = self.ask(b"qXfer:features:read:%s:%x,800" % (name.encode(), len(text)))
            if piece[:1] not in (b"m", b"l"):
                raise RemoteError(f"the stub has no target description {name}: {piece!r}")
            text += piece[1:]
            if piece[:1] == b"l":
                return text.decode("ascii", "replace")

    def registers(self) -> Dict[str, Register]:
        """The registers by name. One without a number has that of the one before it, and one more."""
        found: Dict[str, Register] = {}
        following = 0
        for name in _INCLUDE.findall(self._document("target.xml")):
            for words in _REGISTER.findall(self._document(name)):
                attributes = dict(_ATTRIBUTE.findall(words))
                number = int(attributes.get("regnum", following))
                found[attributes["name"]] = Register(number, int(attributes["bitsize"]) // 8)
                following = number + 1
        return found

    def threads(self) -> List[bytes]:
        """The names of the threads, in the order of the stub."""
        names: List[bytes] = []
        answer = self.ask(b"qfThreadInfo")
        while answer[:1] == b"m":
            names += answer[1:].split(b",")
            answer = self.ask(b"qsThreadInfo")
        if not names:
            raise RemoteError("the stub has no threads")
        return names

    def read_memory(self, ranges: List[Tuple[int, int]]) -> List[bytes]:
        """The bytes of ranges, each an address and a length of at most MOST_MEMORY."""
        answers = self.ask_all([b"m%x,%x" % place for place in ranges])
        return [content_of(answer, place) for answer, place in zip(answers, ranges)]

    def write_memory(self, address: int, content: bytes) -> None:
        """Writes bytes to memory."""
        for start in range(0, len(content), MOST_MEMORY):
            piece = content[start : start + MOST_MEMORY]
            self.command(b"M%x,%x:%s" % (address + start, len(piece), piece.hex().encode()))

    def step(self, thread: bytes) -> None:
        """Steps one thread; all others stand still."""
        answer = self.ask(b"vCont;s:%s" % thread)
        if not answer.startswith((b"T05", b"S05")):
            raise RemoteError(f"after a step the stub answers {answer!r}")


def content_of(answer: bytes, place: Tuple[int, int]) -> bytes:
    """The bytes of an answer to a read of memory."""
    address, length = place
    try:
        content = bytes.fromhex(answer.decode("ascii"))
    except (ValueError, UnicodeDecodeError):
        content = b""
    if len(content) != length:
        raise RemoteError(f"the stub answers {answer!r} to a read of {length} bytes at {address:x}")
    return content


def number_of(answer: bytes) -> int:
    """The number that the bytes of a register spell, the low byte first."""
    try:
        return int.from_bytes(bytes.fromhex(answer.decode("ascii")), "little")
    except (ValueError, UnicodeDecodeError):
        raise RemoteError(f"the stub answers {answer!r} in the place of a register") from None
