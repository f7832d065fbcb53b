"""Refusals, an exception for each kind of question."""
from __future__ import annotations

from typing import ClassVar, Dict, Optional, Type

from ._derived import (
    CheapestQuestion,
    MergeQuestion,
    PacketQuestion,
    ProgramQuestion,
    ProofQuestion,
    SetQuestion,
    SplitQuestion,
    TrimQuestion,
)
from ._question import Question


class Refusal(Exception):
    """An input is refused. The question is the first that is answered no."""

    #: What is refused, in a word.
    of: ClassVar[str] = ""
    questions: ClassVar[Type[Question]] = Question

    def __init__(self, question: Question, place: Optional[int] = None) -> None:
        super().__init__(question, place)
        #: The question. Its string is its text.
        self.question = question
        #: Of a program the line and of a proof the step, counted from 1, and 0 where the whole text is at fault; None
        #: where none is told.
        self.place = place

    @property
    def number(self) -> int:
        """The question's number."""
        return self.question.number

    @property
    def mend(self) -> str:
        """What to mend."""
        return self.question.mend

    def __str__(self) -> str:
        place = "" if self.place is None else f" {self.place}"
        return f"refused {self.of} {self.number}{place}: {self.question} To mend: {self.mend}"


class ProgramRefusal(Refusal):
    """A program text is refused."""

    of = "program"
    questions = ProgramQuestion


class ProofRefusal(Refusal):
    """A proof text, or a line of one, is refused."""

    of = "proof"
    questions = ProofQuestion


class SetRefusal(Refusal):
    """The set test is refused."""

    of = "set"
    questions = SetQuestion


class PacketRefusal(Refusal):
    """A packet, or what is to be one, is refused."""

    of = "packet"
    questions = PacketQuestion


class MergeRefusal(Refusal):
    """Two halves, or the ends of a tree, are not merged."""

    of = "merge"
    questions = MergeQuestion


class TrimRefusal(Refusal):
    """A proof is not trimmed."""

    of = "trim"
    questions = TrimQuestion


class CheapestRefusal(Refusal):
    """A set is not certified to be a cheapest answer set."""

    of = "cheapest"
    questions = CheapestQuestion


class SplitRefusal(Refusal):
    """The long sums of a program are not split."""

    of = "splitting"
    questions = SplitQuestion


class UnknownAnswer(Exception):
    """A number that the library's contracts do not allow: this package and its library do not belong together."""

    def __init__(self, wanted: str, number: int) -> None:
        super().__init__(wanted, number)
        self.wanted = wanted
        self.number = number

    def __str__(self) -> str:
        return f"the library answered {self.number}, which is no {self.wanted}"


_BY_NUMBER: Dict[Type[Refusal], Dict[int, Question]] = {
    kind: {question.number: question for question in kind.questions} for kind in Refusal.__subclasses__()
}


def refusal(kind: Type[Refusal], number: int, place: Optional[int] = None) -> Refusal:
    """The refusal by the question of this number."""
    question = _BY_NUMBER[kind].get(number)
    if question is None:
        raise UnknownAnswer(f"question put to a {kind.of}", number)
    return kind(question, place)
