"""The calls of libsllink.so, as sllink.h has them."""

import ctypes
from typing import Any, List, Tuple

from ._options import Options

ROOM = 8                                                     # the answer where the text is longer than the room


class Managed(ctypes.Structure):
    _fields_ = [
        ("spacecraft", ctypes.c_uint16), ("tm_length", ctypes.c_uint16), ("tc_length", ctypes.c_uint16),
        ("tm_fecf", ctypes.c_bool), ("tc_fecf", ctypes.c_bool), ("window", ctypes.c_uint8), ("vr", ctypes.c_uint8 * 64),
        ("plain", ctypes.c_bool * 64), ("limit", ctypes.c_uint64),
    ]


class Totals(ctypes.Structure):
    _fields_ = [(name, ctypes.c_uint64)
                for name in ("octets", "frames", "skipped", "rest", "packets", "idle", "anomalies")]


def loaded(path: str) -> Any:
    """The library, with the types of its calls over recordings."""
    calls = ctypes.CDLL(path)
    size, octets, managed = ctypes.c_size_t, ctypes.c_char_p, ctypes.POINTER(Managed)
    for kind in "tm", "tc":
        for verb in "show", "check", "packets", "normalise", "same_packets":
            call = getattr(calls, f"sllink_{verb}_{kind}")
            answers: List[Any] = [ctypes.c_bool] if verb == "same_packets" else [size, Totals]
            call.argtypes = [managed, octets, size, octets, size, *map(ctypes.POINTER, answers)]
            call.restype = ctypes.c_uint
    return calls


def text_of(call: Any, octets: bytes) -> Tuple[int, bytes]:
    """What one of the engines answers, and its text."""
    answer, size = ROOM, ctypes.c_size_t(2 * len(octets) + 4096)
    while answer == ROOM:                                    # where the text is longer, once more
        text = ctypes.create_string_buffer(size.value)
        answer = call(octets, len(octets), text, len(text), size, Totals())
    return answer, ctypes.string_at(text, min(size.value, len(text)))


def same_of(call: Any, one: bytes, other: bytes) -> Tuple[int, bool]:
    """What is answered of two recordings, and whether they deliver the same packets."""
    same = ctypes.c_bool(False)
    answer: int = call(one, len(one), other, len(other), same)
    return answer, same.value


def managed_of(of: Options) -> Managed:
    """Options as the library has them."""
    starts = (ctypes.c_uint8 * 64)(*(of.vr_of.get(vc, of.vr) for vc in range(64)))
    plain = (ctypes.c_bool * 64)(*(vc in of.plain for vc in range(64)))
    return Managed(of.scid, of.tm_length, of.tc_length, of.tm_fecf, of.tc_fecf, of.window, starts, plain, of.limit)
