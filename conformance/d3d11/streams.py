"""The two streams, of requests and of answers, which one machine writes and another one reads.

All numbers are little-endian words of 32 bits. A stream of requests: its magic of 8 bytes, the version, the suite's
identity of 32 bytes, the count of requests, and for each its count of words and these. A stream of answers: its magic,
the version, the identity of the requests, their count, the count of bytes that follow and in these what the device says
of itself; then for each request a status, a count of bytes and the bytes: 0 and a picture's runs, 1 and in UTF-8 why
there is none, or 2 and a word for each sample. Both end in the mark `ENDS` and the CRC-32 of all bytes before it.
conformance/rasterize/streams.hpp is the other side.

The identity is the SHA-256 of the requests, so that answers cannot be compared with another suite than they were made
for. A magic has the bytes that a system changes where it takes a stream for text.
"""

from __future__ import annotations

import hashlib
import struct
import zlib
from dataclasses import dataclass
from typing import NamedTuple, Sequence

REQUESTS, ANSWERS = b"\x89TRQ\r\n\x1a\n", b"\x89TRA\r\n\x1a\n"
# Version 2 is for requests of which one asks for more than version 1 has; the others are the same bytes.
VERSION, LAST_VERSION = 1, 2
END = b"ENDS"
IDENTITY_BYTES = 32
PICTURE, REFUSED, VALUES = 0, 1, 2


class StreamError(Exception):
    """A stream that cannot be compared. Its text begins with the error's name."""

    def __str__(self) -> str:
        return f"{type(self).__name__}: {super().__str__()}"


class NotAStream(StreamError):
    """The bytes do not begin with the magic."""


class OtherVersion(StreamError):
    """The stream has another version than this program reads."""


class OtherSuite(StreamError):
    """The answers were made for other requests."""


class CutShort(StreamError):
    """The stream ends before its mark."""


class BadChecksum(StreamError):
    """Bytes of the stream were changed, or others follow its end."""


class Malformed(StreamError):
    """A request or an answer has not the form that its head names."""


class Answer(NamedTuple):
    status: int
    data: bytes


@dataclass(frozen=True)
class Answers:
    about: str
    answers: list[Answer]


def identity_of(requests: Sequence[bytes]) -> bytes:
    digest = hashlib.sha256()
    for request in requests:
        digest.update(len(request).to_bytes(4, "little") + request)
    return digest.digest()


def ended(parts: list[bytes]) -> bytes:
    """The stream of these parts, with its end."""
    body = b"".join([*parts, END])
    return body + struct.pack("<I", zlib.crc32(body))


def write_requests(requests: Sequence[bytes], version: int = VERSION) -> bytes:
    """The stream of requests, each of them whole words."""
    parts = [REQUESTS, struct.pack("<I", version), identity_of(requests), struct.pack("<I", len(requests))]
    for request in requests:
        parts += [struct.pack("<I", len(request) // 4), request]
    return ended(parts)


def write_answers(identity: bytes, answers: Answers) -> bytes:
    about = answers.about.encode()
    parts = [ANSWERS, struct.pack("<I", VERSION), identity, struct.pack("<II", len(answers.answers), len(about)), about]
    for answer in answers.answers:
        parts += [struct.pack("<II", answer.status, len(answer.data)), answer.data]
    return ended(parts)


class Reader:
    """The parts of a stream, from its magic to its end. Each call raises `CutShort` if the stream has fewer bytes."""

    def __init__(self, data: bytes, magic: bytes, what: str) -> None:
        self.data, self.place, self.what = data, 0, what
        if data[: len(magic)] != magic[: len(data)]:
            raise NotAStream(f"these bytes are no stream of {what}")
        self.take(len(magic))
        version = self.number()
        if not VERSION <= version <= LAST_VERSION:
            raise OtherVersion(f"the {what} have version {version}, and this program reads {VERSION} to {LAST_VERSION}")
        self.identity = self.take(IDENTITY_BYTES)

    def take(self, count: int) -> bytes:
        if len(self.data) - self.place < count:
            raise CutShort(f"the {self.what} end after {len(self.data)} bytes")
        self.place += count
        return self.data[self.place - count : self.place]

    def number(self) -> int:
        (number,) = struct.unpack("<I", self.take(4))
        return int(number)

    def end(self) -> None:
        """Checks that the stream ends here. Raises `BadChecksum` if it does otherwise."""
        mark = self.take(len(END))
        expected = zlib.crc32(self.data[: self.place])
        if mark != END or self.number() != expected or self.place != len(self.data):
            raise BadChecksum(f"the {self.what} were changed on their way")


def read_requests(data: bytes) -> tuple[bytes, list[bytes]]:
    """The identity and the requests of a stream. Raises `StreamError`."""
    reader = Reader(data, REQUESTS, "requests")
    count = reader.number()
    requests = [reader.take(4 * reader.number()) for _ in range(count)]
    reader.end()
    if identity_of(requests) != reader.identity:
        raise BadChecksum("the requests are not those of their identity")
    return reader.identity, requests


def read_answers(data: bytes, requests: Sequence[bytes]) -> Answers:
    """The answers to these requests. Raises `StreamError`."""
    reader = Reader(data, ANSWERS, "answers")
    count = reader.number()
    about = reader.take(reader.number())
    answers = []
    for _ in range(count):
        status = reader.number()
        answers.append(Answer(status, reader.take(reader.number())))
    reader.end()
    if reader.identity != identity_of(requests):
        raise OtherSuite("the answers are to other requests; were those written with the same --suite and --bits?")
    if count != len(requests):
        raise Malformed(f"{count} answers to {len(requests)} requests")
    return Answers(about.decode(errors="replace"), answers)
