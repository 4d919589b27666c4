"""Direct3D 11 as a renderer of draw lists: what it is asked, and its answers, which another machine may have drawn."""

from __future__ import annotations

from typing import Callable, Sequence

from conformance.d3d11 import pictures
from conformance.d3d11.requests import PIXELS, request, version_of
from conformance.d3d11.streams import PICTURE, REFUSED, VALUES, Answer, Answers, Malformed, read_answers, write_requests
from conformance.renderer import Candidate, CannotAsk, require_powers_of_two
from conformance.suites import DIRECT3D_LEFT_OUT
from conformance.suites.setting import PLAIN, Setting
from tools.draw_list import DrawList


class Interface:
    """What asking and reading answers have in common: a list under a setting is a request."""

    def __init__(self) -> None:
        self.setting = PLAIN

    def left_out(self) -> Sequence[tuple[str, str]]:
        return DIRECT3D_LEFT_OUT

    def through(self, setting: Setting) -> Candidate:
        self.setting = setting
        return self

    def said(self) -> list[tuple[str, str]]:
        raise NotImplementedError

    def picture(self, scene: DrawList) -> bytes:
        require_powers_of_two(scene)
        return self.answer(request(scene, self.setting), scene["width"] * scene["height"])

    def pixels(self, scene: DrawList) -> bytes:
        require_powers_of_two(scene)
        return self.words(request(scene, self.setting, PIXELS), scene["width"] * scene["height"])

    def answer(self, request: bytes, pixels: int) -> bytes:
        """The picture that a request is answered with."""
        raise NotImplementedError

    def words(self, request: bytes, count: int) -> bytes:
        """The words of a request that asks for them."""
        raise NotImplementedError


class Questions(Interface):
    """Notes each request that a comparison makes, once, and answers with a black picture."""

    def __init__(self) -> None:
        super().__init__()
        self.requests: dict[bytes, None] = {}

    def said(self) -> list[tuple[str, str]]:
        return []

    def answer(self, request: bytes, pixels: int) -> bytes:
        self.requests[request] = None
        return bytes(3 * pixels)

    def words(self, request: bytes, count: int) -> bytes:
        self.requests[request] = None
        return bytes(4 * count)


class Direct3D(Interface):
    """The answers to requests, by what was asked."""

    def __init__(self, requests: Sequence[bytes], answers: Answers) -> None:
        super().__init__()
        self.about = answers.about
        self.answers: dict[bytes, Answer] = dict(zip(requests, answers.answers))

    def said(self) -> list[tuple[str, str]]:
        pairs = (line.partition("\t") for line in self.about.splitlines())
        return [(question, answer) for question, _tab, answer in pairs]

    def given(self, request: bytes, wanted: int) -> bytes:
        """The bytes of an answer with this status. Raises `CannotAsk` with its reason if there is none."""
        status, data = self.answers[request]
        if status == REFUSED:
            raise CannotAsk(data.decode(errors="replace"))
        if status != wanted:
            raise Malformed(f"an answer of status {status}, and not {wanted}")
        return data

    def answer(self, request: bytes, pixels: int) -> bytes:
        return pictures.decode(self.given(request, PICTURE), pixels)

    def words(self, request: bytes, count: int) -> bytes:
        data = self.given(request, VALUES)
        if len(data) != 4 * count:
            raise Malformed(f"{len(data)} bytes of {count} words")
        return data


def asked(compare: Callable[[Questions], object]) -> list[bytes]:
    """The requests that a comparison makes of its driver, in their order and each once."""
    questions = Questions()
    compare(questions)
    return list(questions.requests)


def drawn_by(draw: Callable[[bytes], bytes], requests: Sequence[bytes]) -> Direct3D:
    """Direct3D by what takes a stream of requests and gives a stream of answers. Raises `StreamError`."""
    return Direct3D(requests, read_answers(draw(write_requests(requests, version_of(requests))), requests))
