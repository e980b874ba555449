"""Tests of the module sllink by the library, whose answers are to be those of the program: those of test_sllink.py that
are of a Way, and others.

    python3 -m unittest discover -s python/tests

The library is $SLLINK_LIBRARY, else the one that `make lib` builds in the repository. Where there is none, nothing is
tried here.
"""

import io
import unittest
from concurrent.futures import ThreadPoolExecutor

import test_sllink
from test_sllink import (DIFFERENCES, EXAMPLES, FIRST, PASS, READERS, RECORDINGS, STATION, compared, otherwise, sllink,
                         whole, written)

try:
    LIBRARY = sllink.Library()
except OSError:
    LIBRARY = None
# Options at the edges of what the program takes. It is too short a limit that the program then refuses.
EDGES = [{}, {"limit": 9}, {"limit": 100}, {"limit": 351}, {"limit": 352}, {"plain": [63, 0]},
         *({name: value} for name, (taken, _) in test_sllink.EDGES.items() for value in taken)]


def setUpModule():
    if LIBRARY is None:
        raise unittest.SkipTest("the library isn't built")


# The tests of each Way again, by the library.
globals().update({it.__name__: type(it.__name__, (it,), {"by": LIBRARY}) for it in test_sllink.Way.__subclasses__()})


class ByTheLibrary(test_sllink.InAFolder):
    """The keyword `program` is a Library."""

    def test_what_is_refused(self):
        def answer(read, *words, **way):
            try:
                return repr(whole(read(*words, **way)))
            except sllink.SllinkError as error:
                return error.status, error.text.partition(": ")[2]

        for edge in EDGES:
            options = sllink.Options(**{"scid": 1, "tm_length": 32, "tm_fecf": True, **edge})
            for kind in "tm", "tc":
                for read in [*READERS, otherwise]:
                    with self.subTest(edge=edge, kind=kind, read=read):
                        self.assertEqual(answer(read, kind, FIRST, options, program=LIBRARY),
                                         answer(read, kind, FIRST, options))
        options = sllink.Options(1, vr_of={5: 57})
        options.vr_of[64] = 0
        self.refused(2, "vr_of", sllink.packets, "tc", FIRST, options, program=LIBRARY)

    def test_what_is_no_call(self):
        for verb, kind in ("show", "tx"), ("say", "tm"), ("same_packets", "tx"), ("farm", "new"), ("", ""):
            self.refused(2, "there is no such call", sllink.lines, verb, kind, PASS, STATION, program=LIBRARY)
        with self.assertRaises(TypeError):
            list(sllink.frames("tm", PASS, ["--scid", "1"], program=LIBRARY))
        for read in DIFFERENCES:
            with self.assertRaisesRegex(TypeError, "a library has no call"):
                whole(read("tm", FIRST, STATION, program=LIBRARY))

    def test_lengths(self):
        """Recordings of few octets, and one whose listing is much longer than it is."""
        for octets in [bytes(length) for length in range(9)] + [b"\x80" * 6400]:
            for kind in "tm", "tc":
                found = list(sllink.lines("check", kind, io.BytesIO(octets), STATION, program=LIBRARY))
                self.assertEqual(found, list(sllink.lines("check", kind, io.BytesIO(octets), STATION)))

    def test_threads(self):
        """Several threads, each with recordings of its own: all calls over recordings."""
        def texts(text):
            return [text(verb, *it) for it in RECORDINGS for verb in ("show", "check", "packets", "normalise")] + [
                compared(*it, program=LIBRARY) for it in RECORDINGS]
        wanted = texts(written)
        with ThreadPoolExecutor(4) as pool:
            them = [pool.submit(texts, LIBRARY.text) for _ in range(80)]
        for found in them:
            self.assertEqual(found.result(), wanted)

    def test_where_the_library_is(self):
        for path in EXAMPLES / "missing.so", PASS:
            with self.assertRaises(OSError):
                sllink.Library(path)
        self.assertEqual(sllink.Library(LIBRARY.path).path, LIBRARY.path)


if __name__ == "__main__":
    unittest.main()
