"""The shared object: its functions by name, the buffers that they are lent, and threads with the stack they need."""
from __future__ import annotations

import ctypes
import threading
from concurrent.futures import Future
from pathlib import Path
from typing import Any, Callable, Dict, Iterable, List, Tuple, Type, Union

from ._derived import ANSWER, FUNCTIONS

Buffer = Union[bytes, "ctypes.Array[Any]"]

#: A text as bytes, or as a string, which goes over as UTF-8.
Text = Union[str, bytes, bytearray, memoryview]

Number = Union[
    Type[ctypes.c_uint8],
    Type[ctypes.c_int16],
    Type[ctypes.c_uint16],
    Type[ctypes.c_int32],
    Type[ctypes.c_uint32],
    Type[ctypes.c_uint64],
]
NUMBERS: Dict[str, Number] = {
    "uint8_t": ctypes.c_uint8,
    "int16_t": ctypes.c_int16,
    "uint16_t": ctypes.c_uint16,
    "int32_t": ctypes.c_int32,
    "uint32_t": ctypes.c_uint32,
    "uint64_t": ctypes.c_uint64,
}


def _taken(parameter: str) -> List[Any]:
    """What ctypes is to take for a parameter of the header: a pointer has its length after it."""
    if parameter.startswith("const uint8_t *"):
        return [ctypes.c_char_p, ctypes.c_size_t]
    kind, _, pointer = parameter.replace("const ", "").partition(" ")
    return [ctypes.POINTER(NUMBERS[kind]), ctypes.c_size_t] if pointer.startswith("*") else [NUMBERS[kind]]


def _load(path: Path) -> Dict[str, Callable[..., int]]:
    """The functions of the shared object."""
    again = "install the package again, after `bindings/library` in the repository's root"
    if not path.is_file():
        raise ImportError(f"{path} is missing: {again}")
    library = ctypes.CDLL(str(path))
    functions: Dict[str, Callable[..., int]] = {}
    for name, parameters in FUNCTIONS.items():
        if not hasattr(library, f"aspdrupe_{name}"):
            raise ImportError(f"{path} has no aspdrupe_{name}: {again}")
        function = library[f"aspdrupe_{name}"]
        function.restype = ctypes.c_uint32
        function.argtypes = [kind for parameter in parameters for kind in _taken(parameter)]
        functions[name] = function
    return functions


_FUNCTIONS = _load(Path(__file__).resolve().parent / "libaspdrupe.so")


def octets(text: Text) -> bytes:
    """The bytes of a text. What could change during a call is copied."""
    if isinstance(text, str):
        return text.encode("utf-8", "surrogatepass")
    if isinstance(text, (bytes, bytearray, memoryview)):
        return bytes(text)
    raise TypeError(f"a text is a string or bytes, not {type(text).__name__}")


def fitted(kind: Number, number: int) -> int:
    """The number; where the type has no place for it, the type's largest, which every service refuses."""
    bits = 8 * ctypes.sizeof(kind)
    least, most = (-(1 << bits - 1), (1 << bits - 1) - 1) if kind(-1).value < 0 else (0, (1 << bits) - 1)
    return number if least <= number <= most else most


def numbers(kind: Number, values: Iterable[int]) -> ctypes.Array[Any]:
    """A buffer of these numbers."""
    given = [fitted(kind, value) for value in values]
    return room(kind, len(given), *given)


def room(kind: Number, length: int, *values: int) -> ctypes.Array[Any]:
    """A buffer of so many numbers, 0 throughout where none are given."""
    return (kind * length)(*values)


# Python's own frames, and what a thread of Linux has by default: one that others start meanwhile has no less.
_MARGIN = 8 << 20

_starting = threading.Lock()


def _in_thread(stack: int, call: Callable[[], int]) -> int:
    """What a call returns, in a thread with so many bytes of stack and the margin."""
    done: Future[int] = Future()

    def run() -> None:
        try:
            done.set_result(call())
        except BaseException as error:
            done.set_exception(error)

    # The size of stacks is one for the process.
    with _starting:
        before = threading.stack_size()
        threading.stack_size(max(before, stack + _MARGIN))
        try:
            threading.Thread(target=run, daemon=True).start()
        finally:
            threading.stack_size(before)
    return done.result()


def call(name: str, *given: Union[int, Buffer], stack: int = 0) -> Tuple[int, List[int]]:
    """What a function returns, and the numbers of its answer.

    Each buffer goes over with its length. Where a stack is named, the function is called in a thread of its own. ctypes
    lets the interpreter's lock go during the call.
    """
    answer = room(ctypes.c_uint64, ANSWER)
    arguments: List[Any] = []
    for value in (*given, answer):
        arguments.append(fitted(ctypes.c_uint64, value) if isinstance(value, int) else value)
        if not isinstance(value, int):
            arguments.append(len(value))
    function = _FUNCTIONS[name]
    code = _in_thread(stack, lambda: function(*arguments)) if stack else function(*arguments)
    return code, list(answer)
