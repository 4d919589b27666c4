"""The rules as a renderer: what they, or a mutant of them, make of lists, without a driver."""

from __future__ import annotations

from abc import ABC, abstractmethod
from typing import Sequence

from conformance import blending
from conformance.mutants import mutant_of
from conformance.suites.setting import PLAIN, Setting
from tools.draw_list import DrawList


class Rules(ABC):
    """A renderer by the rules. Under a setting it draws what they make of a list, or what a mutant of them makes."""

    def __init__(self, name: str, mutant: str) -> None:
        self.name = name
        self.mutant = mutant_of(mutant)
        self.setting = PLAIN

    def said(self) -> list[tuple[str, str]]:
        return [("renderer", self.name)]

    def left_out(self) -> Sequence[tuple[str, str]]:
        return ()

    def through(self, setting: Setting) -> Rules:
        self.setting = setting
        return self

    def list_drawn(self, scene: DrawList) -> DrawList:
        """The list that the rules, or the mutant, draw in place of this one."""
        return self.mutant.drawn(scene, self.setting)

    @abstractmethod
    def picture(self, scene: DrawList) -> bytes:
        """Red, green and blue of the list's pixels."""

    def pixels(self, scene: DrawList) -> bytes:
        return blending.pixels(self.list_drawn(scene))
