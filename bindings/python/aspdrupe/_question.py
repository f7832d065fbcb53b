"""What a question is: a number, a text, and what to mend where it is answered no."""
from __future__ import annotations

from enum import Enum


class Question(Enum):
    """A question that a service puts to its inputs. Its string is its text."""

    def __init__(self, number: int, text: str, mend: str) -> None:
        self.number = number
        self.text = text
        self.mend = mend

    def __str__(self) -> str:
        return self.text
