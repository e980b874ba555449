"""Tests of the module sllink, with the built program and the recordings of examples/.

    python3 -m unittest discover -s python/tests

The program is the one that `find_program` finds. Those of a Way test_library.py has again, by a library for C.
"""

import contextlib
import copy
import dataclasses
import errno
import gzip
import io
import itertools
import os
import pathlib
import pickle
import re
import shutil
import signal
import subprocess
import sys
import tempfile
import threading
import time
import traceback
import tracemalloc
import unittest
import unittest.mock
from binascii import crc_hqx

ROOT = pathlib.Path(__file__).resolve().parents[2]
sys.path.insert(0, str(ROOT / "python"))

import sllink  # noqa: E402
from sllink import _calls, tool  # noqa: E402
from sllink._library import INSTALLED, octets_of  # noqa: E402
from sllink._program import find_beside  # noqa: E402

EXAMPLES = ROOT / "examples"
FIRST, SECOND, THIRD, FOURTH = (EXAMPLES / f"{name}-station.tm" for name in ("first", "second", "third", "fourth"))
PASS, UPLINK = EXAMPLES / "pass.tm", EXAMPLES / "uplink.tc"
STATION = sllink.Options(scid=1, tm_length=32, tm_fecf=True)
OF_PASS, OF_UPLINK = sllink.Options(scid=1, tm_length=64), sllink.Options(scid=1, tc_length=16)
RECORDINGS = [
    ("tm", PASS, OF_PASS), ("tm", PASS, sllink.Options(scid=42, tm_length=64)),
    ("tm", FIRST, STATION), ("tm", FIRST, sllink.Options(scid=1, tm_length=32)),
    ("tm", SECOND, STATION), ("tm", THIRD, STATION),
    ("tc", UPLINK, OF_UPLINK), ("tc", UPLINK, sllink.Options(scid=1, tc_length=16, tc_fecf=True)),
    ("tc", EXAMPLES / "plain.tc", sllink.Options(scid=1, tc_length=24, plain=[5], vr_of={5: 57})),
    ("tc", PASS, sllink.Options(scid=1)),
]
ASKING = "-h", "-hh", "--help", "-V", "--version"           # words by which the program reads no recording
# Values that no option takes; and of each option values at the edges that the program takes, and such as it refuses.
WRONG = "--scid=0x2A7 --scid=70000 --tm-length=70000 --vr-of=5:57,0:3 --vr-of=5=57 --plain=5-7 --limit=1G".split()
EDGES = {
    "scid": ([0, 1023], [-1, 1024]), "tm_length": ([32, 2048], [31, 2049]), "tc_length": ([16, 1024], [15, 1025]),
    "window": ([2, 254], [0, 3, 256]), "vr": ([0, 255], [-1, 256]), "limit": ([1, (1 << 64) - 1], [0, 1 << 64]),
    "plain": ([[0, 63]], [[64]]), "vr_of": ([{0: 255, 63: 0}], [{64: 0}, {0: 256}]),
}


def written(verb, kind, recording, options):
    """What the program itself writes."""
    with open(recording, "rb") as octets:
        ran = subprocess.run([sllink.find_program(), verb, kind, *options.words()], stdin=octets,
                             stdout=subprocess.PIPE, stderr=subprocess.PIPE, check=False)
    assert ran.returncode in (0, 1), ran.stderr
    return ran.stdout


def ran(tool_name, *words):
    """Status and output of a tool."""
    done = subprocess.run([ROOT / "tools" / tool_name, *words], stdout=subprocess.PIPE, check=False)
    return done.returncode, os.fsdecode(done.stdout)


def checked(kind, recording, options, **way):
    """The anomalies of a recording, and its totals."""
    found = sllink.anomalies(kind, recording, options, **way)
    return list(found) + [found.totals]


def normalised(kind, recording, options, **way):
    """Its normal form."""
    form = io.BytesIO()
    sllink.normal_form(kind, recording, form, options, **way)
    return form.getvalue()


def compared(kind, recording, options, *others, **way):
    """Whether it has the packets of itself, with other options the second time."""
    return sllink.same_packets(kind, recording, recording, options, *others, **way)


def otherwise(*words, **way):
    """Whether it has the packets of itself, read with other options, which sllink-compare tells."""
    return compared(*words, sllink.Options(1), **way)


READERS = [sllink.frames, checked, sllink.packets, normalised, compared]
DIFFERENCES = [lambda kind, it, *more, **way: sllink.difference(kind, it, FIRST, *more, **way),
               lambda kind, it, *more, **way: sllink.difference(kind, FIRST, it, *more, **way)]


def whole(found):
    """All that comes of a call."""
    return list(found) if hasattr(found, "__next__") else found


class InAFolder(unittest.TestCase):
    """Tests that make files."""

    def setUp(self):
        folder = tempfile.TemporaryDirectory()
        self.addCleanup(folder.cleanup)
        self.folder = pathlib.Path(folder.name)

    def file(self, name, octets):
        """A file of these octets."""
        path = self.folder / name
        path.write_bytes(octets)
        return path

    def program(self, script, version="[ $1 != --version ] || { echo sllink 1.0.0; exit; }\n", name="program"):
        """A program in place of sllink."""
        path = self.file(name, f"#!/bin/sh\n{version}{script}".encode())
        path.chmod(0o755)
        return path

    def comes_true(self, that):
        """It does within two seconds."""
        self.assertTrue(any(that() or time.sleep(0.02) for _ in range(100)))

    def gone(self):
        """The processes that have written their numbers end, and are waited for."""
        for number in (self.folder / "numbers").read_text().split():
            self.comes_true(lambda: not os.path.exists(f"/proc/{number}"))

    def refused(self, status, said, read, *words, **more):
        """What it says where a call is refused, with this status and this in its text, by a regular expression."""
        with self.assertRaisesRegex(sllink.SllinkError, said) as raised:
            whole(read(*words, **more))
        self.assertEqual((raised.exception.status, raised.exception.text), (status, str(raised.exception)))
        return raised.exception.text


class Way(InAFolder):
    """Tests that read recordings by the program, or in its place by what is set here."""

    by = None


class Listings(Way):
    """Each value has all that its line has: str() gives the line."""

    def test_lines(self):
        for kind, path, options in RECORDINGS:
            for verb, read in ("show", sllink.frames), ("check", checked), ("packets", sllink.packets):
                with self.subTest(verb=verb, path=path, options=options):
                    lines = written(verb, kind, path, options).decode().splitlines()
                    self.assertEqual([str(it) for it in read(kind, path, options, program=self.by)], lines)
                    self.assertEqual(list(sllink.lines(verb, kind, path, options, program=self.by)), lines)
                    self.assertTrue(lines or verb == "packets")

    def test_attributes(self):
        tm = list(sllink.frames("tm", PASS, OF_PASS, program=self.by))
        clcw = sllink.Clcw(word=0x01000001, vc=0, lockout=False, wait=False, retransmit=False, farmb=0, vr=1)
        self.assertEqual(tm[0], sllink.TmFrame(offset=0, vc=0, mc=0, vcc=0, what="first", first=0, ocf=None, clcw=None))
        self.assertEqual((tm[1].ocf, tm[1].clcw), (0x01000001, clcw))
        self.assertEqual([type(it).__name__ for it in tm[-3:]], ["Skip", "Skip", "Remainder"])
        self.assertEqual(tm[-3].reason, "spacecraft")
        tc = list(sllink.frames("tc", UPLINK, OF_UPLINK, program=self.by))
        self.assertEqual(tc[0], sllink.TcFrame(offset=0, vc=0, what="ad", ns=0, setvr=None, segment="whole", map=0,
                                               octets=10, verdict="accept", clcw=clcw))
        self.assertEqual([(it.what, it.setvr) for it in tc if getattr(it, "what", "") in ("unlock", "setvr")],
                         [("setvr", 5), ("unlock", None), ("setvr", 5)])
        self.assertTrue(tc[4].clcw.lockout)
        gap, dropped = sllink.anomalies("tm", THIRD, STATION, program=self.by)
        self.assertEqual((gap.offset, gap.word, gap.vc, gap.expected, gap.found), (256, "gap", 1, 1, 2))
        self.assertEqual((dropped.word, dropped.octets, dropped.map), ("dropped", 24, None))
        packet = next(sllink.packets("tm", FIRST, STATION, program=self.by))
        self.assertEqual(packet, sllink.Packet(vc=0, map=None, apid=100, type=0, secondary=0, flags=3, count=0,
                                               octets=bytes.fromhex("0064c0000005000000000000")))
        packet = next(sllink.packets("tc", UPLINK, OF_UPLINK, program=self.by))
        self.assertEqual((packet.map, packet.type), (0, 1))
        # without the anomalies before them
        totals = sllink.anomalies("tm", THIRD, STATION, program=self.by).totals
        self.assertEqual(totals, sllink.Totals(frames=10, skipped=0, packets=4, idle=2, anomalies=2))

    def test_values(self):
        values = [*sllink.frames("tm", PASS, OF_PASS), *sllink.frames("tc", UPLINK, OF_UPLINK),
                  *sllink.packets("tm", FIRST, STATION), *checked("tm", THIRD, STATION), STATION]
        for it in values:
            self.assertEqual(pickle.loads(pickle.dumps(it)), it)
            self.assertEqual(copy.deepcopy(it), it)
            self.assertEqual(len({it, copy.copy(it)}), 1)
            with self.assertRaises(AttributeError):
                it.scid = 2
        for it in values[:-2]:
            self.assertFalse(hasattr(it, "__dict__"))

    def test_names(self):
        """What is public prints with its public name, and is pickled by it; names in lines are printable text."""
        for name in sllink.__all__:
            it = getattr(sllink, name)
            if isinstance(it, type):
                self.assertEqual(repr(it), f"<class 'sllink.{name}'>")
        for name, shown in (("pass.tm", "pass.tm"), ("two\nlines\t\x1b[1m", "two\\nlines\\t\\x1b[1m"),
                            (b"\xff.tm", "\\xff.tm"), ("Überflug.tm", "Überflug.tm"), ("", "''")):
            self.assertEqual((tool.shown(name), str(sllink.SllinkError(127, name))), (shown, shown))
        error = sllink.SllinkError(2, "why")
        self.assertEqual(traceback.format_exception_only(type(error), error), ["sllink.SllinkError: why\n"])
        self.assertEqual(pickle.loads(pickle.dumps(error)).args, (2, "why"))
        self.assertNotIn(b"sllink.", pickle.dumps([error, STATION, sllink.Skip(0, "fecf")]))

    def test_counts(self):
        counts = sllink.counts(sllink.packets("tm", SECOND, STATION, program=self.by))
        self.assertEqual([str(it) for it in counts], ["vc 0 apid 100 packets 4 octets 48 jumps 0",
                                                      "vc 1 apid 200 packets 2 octets 56 jumps 0"])
        packet = sllink.Packet(0, None, 1, 0, 0, 3, 16383, b"1234567")
        wrapped = sllink.Packet(0, None, 1, 0, 0, 3, 0, b"12345678")
        self.assertEqual(sllink.counts([packet, wrapped, wrapped]), [sllink.Count(0, None, 1, 3, 23, 1)])
        self.assertEqual(sllink.counts([]), [])
        some = [sllink.Packet(vc, map_id, 5, 0, 0, 3, 7, bytes(7)) for vc in (1, 0) for map_id in (5, None, 0)]
        self.assertEqual([(it.vc, it.map) for it in sllink.counts(some)],
                         [(vc, map_id) for vc in (0, 1) for map_id in (None, 0, 5)])


class TheOptions(InAFolder):
    """Options and their words."""

    def test_words(self):
        options = sllink.Options(7, tm_fecf=True, tc_fecf=True, vr_of={5: 57, 0: 3}, plain=[9, 5])
        self.assertEqual(options.words(), [
            "--scid=7", "--tm-length=1115", "--tc-length=1024", "--window=10", "--vr=0", "--limit=1073741824",
            "--tm-fecf", "--tc-fecf", "--vr-of=0:3,5:57", "--plain=5,9"])
        self.assertEqual(list(sllink.anomalies("tm", io.BytesIO(), options)), [])
        words = ["--scid", "1", "--tm-length=32", "--tm-fecf"]
        self.assertEqual(list(sllink.packets("tm", FIRST, words)), list(sllink.packets("tm", FIRST, STATION)))

    def test_those_of_the_program(self):
        """Each option in the program's help is there, with its default."""
        said = subprocess.check_output([sllink.find_program(), "show", "--help"]).decode()
        found = {name.replace("-", "_"): [int(it) for it in re.findall(r"\[default: (\d+)\]", more)]
                 for name, more in re.findall(r"^ +(?:-[a-z], )?--([a-z-]+)(.*(?:\n {8,}.*)*)", said, re.M)}
        del found["help"]
        self.assertEqual(found, {it.name: [it.default] if type(it.default) is int else []
                                 for it in dataclasses.fields(sllink.Options)})

    def test_those_of_the_library(self):
        """Its structures are those of the header, with all options; it is looked for by the name that is installed."""
        header = (ROOT / "include" / "sllink.h").read_text()
        for name, structure in ("managed", _calls.Managed), ("totals", _calls.Totals):
            fields = header.partition(f"typedef struct sllink_{name} {{")[2].partition("}")[0]
            self.assertEqual(re.findall(r"^ +\w+ (\w+)", fields, re.M), [it for it, _ in structure._fields_])
        named = {"scid": "spacecraft", "vr_of": "vr"}
        self.assertEqual({named.get(it.name, it.name) for it in dataclasses.fields(sllink.Options)},
                         {it for it, _ in _calls.Managed._fields_})
        soname = re.findall(r"^SONAME = (\S+)", (ROOT / "Makefile").read_text(), re.M)
        self.assertEqual([os.path.basename(INSTALLED)], soname)

    def test_what_is_no_word(self):
        """Text is no sequence of words."""
        for kind, words in (None, STATION), (b"tm", STATION), ("tm", ["--scid", 1]), ("tm", "--scid 1"), ("tm", b"-V"):
            with self.assertRaisesRegex(TypeError, "is no word of a command line|a sequence of words, no text"):
                whole(sllink.lines("show", kind, FIRST, words))
        self.refused(2, "no word has an octet 0", sllink.lines, "show", "tm\0", FIRST, STATION)
        self.refused(2, "has no lines", sllink.lines, "normalise", "tm", FIRST, STATION)

    def test_refused(self):
        for options, said in ((["--scid=1024"], "spacecraft"), (["--scid=1", "--tm-length=31"], "tm length"),
                              (["--scid", "x"], "--scid"), ([], "--scid"), (["--spare"], "--spare"),
                              *((["--scid=1", word], f"{word} is no option for a recording") for word in ASKING)):
            for read in READERS[:3]:
                with self.subTest(options=options, read=read):
                    text = self.refused(2, said, read, "tm", PASS, options)
                    self.assertTrue(text.startswith("sllink: "))
                    self.assertNotIn("\n", text)
        for kind in ("tx", *ASKING):
            self.refused(2, "", sllink.frames, kind, PASS, STATION)
        for word in WRONG:
            option = word.partition("=")[0]
            words = [word] if option == "--scid" else ["--scid=1", word]
            self.refused(2, f"^sllink: .*; {option} takes .*[0-9]", sllink.packets, "tc", PASS, words)

    def test_refused_at_once(self):
        """What isn't an integer or a truth value, and each edge exactly if the program refuses it."""
        channels = "virtual channels from 0 to 63"
        for name, takes, *values in (
                ("scid", "an integer from 0 to 1023", 99999, "1", "1_0", True), ("vr", "an integer from 0 to 255", 1.9),
                ("window", "an even integer from 2 to 254", 9), ("tm_fecf", "True or False", "no"),
                ("tc_fecf", "True or False", 1), ("plain", channels, 5, "5", "", b"5", {5: 6}, [0, 0]),
                ("vr_of", f"{channels}, each with its V(R) from 0 to 255", {0.5: 1}, None, "", [(0, 1), (0, 2)])):
            for value in values:
                text = self.refused(2, "", sllink.Options, **{"scid": 1, name: value})
                self.assertEqual(text, f"sllink: {name}={value!r}; {name} takes {takes}")
        self.refused(2, "^sllink: scid=an integer that .*; scid takes ", sllink.Options, 10**5000)
        self.assertEqual({*EDGES, "tm_fecf", "tc_fecf"}, {it.name for it in dataclasses.fields(sllink.Options)})
        for name, (taken, refused) in EDGES.items():
            for value in taken + refused:
                word = f"--{name.replace('_', '-')}=" + re.sub(r"[][{} ]", "", str(value))
                words = [word] if name == "scid" else ["--scid=1", word]
                for read in (lambda: sllink.Options(**{"scid": 1, name: value}),
                             lambda: list(sllink.packets("tc", io.BytesIO(), words))):
                    said = f"; (--)?{name.replace('_', '[-_]')} takes .*[0-9]"
                    with self.subTest(word=word), (self.assertRaisesRegex(sllink.SllinkError, said)
                                                   if value in refused else contextlib.nullcontext()):
                        read()
        options = sllink.Options(1, vr_of={5: 57})
        options.vr_of[64] = 0
        self.refused(2, "--vr-of", sllink.packets, "tc", io.BytesIO(), options)


class Recordings(Way):
    """A recording may be a path, a descriptor or a binary file object, from where it stands on."""

    def setUp(self):
        super().setUp()
        self.octets = FIRST.read_bytes()
        self.wanted = list(sllink.frames("tm", FIRST, STATION))

    def check(self, recording):
        self.assertEqual(list(sllink.frames("tm", recording, STATION, program=self.by)), self.wanted)

    def check_octets(self, recording):
        self.assertEqual(octets_of(recording), self.octets)

    def sent(self, *parts):
        """A descriptor that doesn't block, on which these parts come, each a tenth of a second later."""
        reader, writer = os.pipe()
        os.set_blocking(reader, False)

        def send():
            with os.fdopen(writer, "wb", 0) as file:
                for part in parts:
                    time.sleep(0.1)
                    file.write(part)

        threading.Thread(target=send).start()
        return reader

    def test_what_is_a_recording(self):
        head, archive = self.file("a", b"head" + self.octets), self.file("a.gz", gzip.compress(self.octets))
        fifo = self.folder / "fifo"
        os.mkfifo(fifo)
        with subprocess.Popen(["cp", FIRST, fifo]), open(FIRST, "rb") as file, open(FIRST, "rb") as buffered, \
                open(FIRST, "rb", buffering=0) as raw, gzip.open(archive, "rb") as packed, open(head, "rb") as begun:
            stream = io.BytesIO(b"head" + self.octets)
            for it in begun, stream:
                self.assertEqual(it.read(4), b"head")
            for it in (FIRST, str(FIRST), os.fsencode(FIRST), fifo, file.fileno(), buffered, raw, packed,
                       io.BytesIO(self.octets), begun, stream):
                self.check(it)

    def test_what_is_no_recording(self):
        """Neither is a truth, nor a descriptor below 0, whatever it means in calls, nor a number that none can be. A
        read() that stops isn't the end, and one that has nothing yet can't be waited for without a descriptor."""
        def reading(found):
            return unittest.mock.Mock(spec=["read"], read=unittest.mock.Mock(side_effect=itertools.repeat(found)))
        for it, fault, *number in (
                (self.folder / "missing", FileNotFoundError), (self.folder, IsADirectoryError), (True, TypeError),
                *((it, OSError, errno.EBADF) for it in (-1, -2, -3, 2 ** 40)),
                (reading("text"), TypeError), (reading(StopIteration), RuntimeError),
                (reading(OSError(5, "it fails")), OSError, 5), (reading(None), BlockingIOError)):
            for read in [*READERS, otherwise, *DIFFERENCES * (not self.by), lambda _, it, *more, **way: octets_of(it)]:
                with self.subTest(it=it, read=read), self.assertRaises(fault) as raised:
                    whole(read("tm", it, STATION, program=self.by))
                self.assertEqual([raised.exception.errno for _ in number], number)

    def test_what_does_not_block(self):
        """It is waited for, also where read() of a file has None, and read1() nothing, while nothing is there."""
        for read, buffering in itertools.product((self.check, self.check_octets), (-1, 0, None)):
            parts = self.octets[:100], self.octets[100:320], self.octets[320:]
            with os.fdopen(self.sent(*parts), "rb", buffering or 0) as file:
                read(file.fileno() if buffering is None else file)


class Ends(InAFolder):
    """Programs that stop, and readers that do."""

    def test_a_stream(self):
        """The first frame comes before the second one is sent."""
        octets, wanted = FIRST.read_bytes(), list(sllink.frames("tm", FIRST, STATION))
        for is_number in True, False:
            reader, writer = os.pipe()
            self.addCleanup(signal.alarm, 0)
            signal.alarm(20)
            with os.fdopen(reader, "rb") as file:
                os.write(writer, octets[:32])
                frames = sllink.frames("tm", reader if is_number else file, STATION)
                self.assertEqual(next(frames), wanted[0])
                os.write(writer, octets[32:])
                os.close(writer)
                self.assertEqual(list(frames), wanted[1:])

    def test_refused_while_the_recording_waits(self):
        reader, writer = os.pipe()
        with os.fdopen(reader, "rb") as recording:
            self.refused(2, "--spare", sllink.frames, "tm", recording, ["--spare"])
            os.close(writer)

    def test_another_program(self):
        """None, or one that doesn't answer to --version as sllink does, is refused before it sees a recording."""
        none = self.folder / "none", self.folder, PASS, "no-such-program", self.folder / "x" / "y"
        others = [shutil.which(name) for name in ("false", "true", "yes", "echo", "cat")]
        scripts = "exec yes", "echo sllink", "echo sllink 1.0.0; exit 1", "echo sllink 1.0.0 of another kind"
        others += [self.program(script, "", str(number)) for number, script in enumerate(scripts)]
        for name in (*none, *others):
            said = re.escape(f"{name}: " + ("isn't sllink, by its answer to --version" if name in others else ""))
            for read in READERS:
                with self.subTest(name=name, read=read):
                    self.refused(127, said, read, "tm", FIRST, STATION, program=name)
            self.refused(127, said, sllink.normal_form, "tm", FIRST, self.folder / "a", STATION, program=name)
        self.assertFalse((self.folder / "a").exists())

    def test_asked_once(self):
        """A program is asked at its first use alone, and again where it is another one."""
        program = self.program("exit 2", f"echo $1 >> {self.folder}/words; [ $1 != --version ] || "
                               "{ echo sllink 2.10; exit; }\n")
        for _ in range(3):
            self.refused(2, "", sllink.packets, "tm", PASS, STATION, program=program)
        self.assertEqual((self.folder / "words").read_text().split(), ["--version"] + ["packets"] * 3)
        self.refused(127, "isn't sllink", sllink.packets, "tm", PASS, STATION, program=self.program("exit 0", ""))

    def test_status_1(self):
        """It is an answer of `check` alone."""
        program = self.program("echo frames 0 skipped 0 packets 0 idle 0 anomalies 1; exit 1")
        self.assertEqual(sllink.anomalies("tm", os.devnull, STATION, program=program).totals.anomalies, 1)
        program = self.program("exit 1")
        for read in [sllink.frames, *READERS[2:]]:
            self.refused(1, "^sllink: status 1$", read, "tm", os.devnull, STATION, program=program)

    def test_check_without_totals(self):
        """They are the last line."""
        totals, gap = "frames 1 skipped 0 packets 1 idle 0 anomalies 0\n", "0 gap vc 1 expected 1 found 2\n"
        for said in "", gap, totals + gap, totals[:-1], totals + totals[:9]:
            for status in 0, 1:
                program = self.program(f"printf '{said}'; exit {status}")
                for words in (sllink.lines, "check"), (sllink.anomalies,):
                    with self.subTest(said=said):
                        self.refused(3, "the totals are missing", *words, "tm", os.devnull, STATION, program=program)

    def test_where_the_program_is(self):
        with unittest.mock.patch.dict(os.environ, SLLINK="/a/program", SLLINK_FRAMES="/b/program"):
            self.assertEqual(sllink.find_program(), "/a/program")
            self.assertEqual(sllink.find_program("another"), "another")
            self.assertEqual(find_beside("sllink-frames"), "/b/program")
        beside = str(self.program("", name="sllink-frames"))
        with unittest.mock.patch.dict(os.environ, SLLINK=str(self.program("")), SLLINK_FRAMES=""):
            self.assertEqual(find_beside("sllink-frames"), beside)
        for read in DIFFERENCES:
            self.refused(127, "isn't sllink-compare, .*SLLINK_COMPARE says", read, "tm", FIRST, STATION,
                         program=sllink.find_program())

    def test_ended_within_the_listing(self):
        for end, status, said in (("kill -9 $$", -signal.SIGKILL, ""),
                                  ("printf '32 skip ver'; echo 'sllink: write' >&2; exit 3", 3, "^sllink: write$")):
            program = self.program(f"echo '0 skip fecf'; {end}")
            frames = sllink.frames("tm", PASS, STATION, program=program)
            self.assertEqual(next(frames), sllink.Skip(0, "fecf"))
            self.refused(status, said, next, frames)

    def test_it_says_much(self):
        self.refused(2, "", sllink.frames, "tm", PASS, ["--scid", "x" * 100000])
        program = self.program("head -c 3000000 /dev/zero | tr '\\0' e >&2; exit 3")
        self.assertEqual(len(self.refused(3, "", sllink.frames, "tm", PASS, STATION, program=program)),
                         len("sllink: ") + 65536)

    def test_left_early(self):
        """By close(), at the end of a with, and out of a loop."""
        def started(read, recording=PASS, line="0 skip fecf"):
            program = self.program(f"echo $$ >> {self.folder}/numbers; exec yes '{line}'")
            return read("tm", recording, STATION, program=program)

        for recording in PASS, io.BytesIO(bytes(10000000)):
            frames = started(sllink.frames, recording)
            next(frames)
            os.kill(int((self.folder / "numbers").read_text().split()[-1]), 0)
            frames.close()
        with started(sllink.anomalies) as anomalies:
            next(anomalies)
        for _ in started(sllink.packets, line="vc 0 apid 1 type 0 secondary 0 flags 3 count 0 octets 7 00010203040506"):
            break
        self.gone()

    def test_memory(self):
        """It doesn't grow with the listing."""
        program = self.program("exec yes '0 skip fecf'")
        frames = sllink.frames("tm", PASS, STATION, program=program)
        list(itertools.islice(frames, 1000))
        tracemalloc.start()
        for _ in range(50000):
            next(frames)
        most = tracemalloc.get_traced_memory()[1]
        tracemalloc.stop()
        frames.close()
        self.assertLess(most, 1000000)

    def test_descriptors(self):
        """None is left open."""
        before = os.listdir("/proc/self/fd")
        for _ in range(5):
            list(sllink.frames("tm", PASS, STATION))
            next(sllink.frames("tm", io.BytesIO(bytes(10000)), STATION))
            sllink.same_packets("tm", FIRST, THIRD, STATION)
            self.refused(2, "--spare", sllink.frames, "tm", io.BytesIO(bytes(10000)), ["--spare"])
        # the threads that listen end a little later
        self.comes_true(lambda: len(os.listdir("/proc/self/fd")) == len(before))


class NormalForms(Way):
    """Normal forms, written and compared."""

    def test_written(self):
        for kind, path, options in [*RECORDINGS, ("tm", os.devnull, STATION)]:
            outputs = self.folder / "a", str(self.folder / "b"), os.fsencode(self.folder / "c"), io.BytesIO()
            for output in outputs:
                self.assertIsNone(sllink.normal_form(kind, path, output, options, program=self.by))
            found = [outputs[3].getvalue(), *((self.folder / name).read_bytes() for name in "abc")]
            self.assertEqual(found, 4 * [written("normalise", kind, path, options)])

    def test_refused(self):
        few = sllink.Options(1, limit=10)
        for output in self.file("a", b"as it was"), self.folder / "b":
            self.refused(2, "--spare", sllink.normal_form, "tm", FIRST, output, ["--spare"])
            self.refused(3, "too long", sllink.normal_form, "tm", FIRST, output, few, program=self.by)
        self.assertEqual((self.folder / "a").read_bytes(), b"as it was")
        self.assertFalse((self.folder / "b").exists())

    def test_output_that_does_not_block(self):
        """Where it takes nothing more, that is said."""
        reader, writer = os.pipe()
        os.set_blocking(writer, False)
        form = self.file("long.tm", FIRST.read_bytes() * 500)
        with os.fdopen(writer, "wb", 0) as file, self.assertRaises(BlockingIOError):
            sllink.normal_form("tm", form, file, STATION, program=self.by)
        os.close(reader)

    def test_output_that_is_full(self):
        with self.assertRaisesRegex(OSError, "No space left"):
            sllink.normal_form("tm", FIRST, "/dev/full", STATION, program=self.by)
        with self.assertRaises(FileNotFoundError):
            sllink.normal_form("tm", FIRST, self.folder / "none" / "a", STATION, program=self.by)
        for output in 1, True:
            with self.assertRaisesRegex(TypeError, "goes to a path or a binary file object"):
                sllink.normal_form("tm", FIRST, output, STATION, program=self.by)

    def test_the_first_difference_ends_both(self):
        program = self.program(f"echo $$ >> {self.folder}/numbers; exec yes $$")
        self.assertIs(sllink.same_packets("tm", os.devnull, os.devnull, STATION, program=program), False)
        self.gone()


def frames_of(letters, fecf=False):
    """TM frames with a packet in each, whose octets and count are those of a letter."""
    frames = [bytes([0, 16, place, place, 24, 0, 0, 1, 192, ord(letter), 0, 19]) + letter.encode() * 20
              for place, letter in enumerate(letters)]
    return b"".join(it + crc_hqx(it, 0xFFFF).to_bytes(2, "big") * fecf for it in frames)


class StationFiles(InAFolder):
    """The program sllink-frames."""

    def test_frames(self):
        """From each sort of recording and to each sort of output, with a marker that is wrong and without."""
        octets, marker, output = FIRST.read_bytes(), bytes.fromhex("1acffc1d"), self.folder / "out.tm"
        units = b"".join(marker + octets[at:at + 32] + b"trail" for at in range(0, len(octets), 32))
        stamp = {"length": 32, "marker": marker, "trail": 5}
        for file, line, status in ((units, "frames 11 wrong-markers 0", 0),
                                   (units[:41] + b"!" + units[42:], "frames 11 wrong-markers 1", 1)):
            path = self.file("units", file)
            with open(path, "rb") as opened:
                for recording, to in (path, output), (opened.fileno(), io.BytesIO()), (io.BytesIO(file), output):
                    totals = sllink.station_frames(recording, to, **stamp)
                    self.assertEqual(output.read_bytes() if to is output else to.getvalue(), octets)
                    self.assertEqual(str(totals), f"{line} skipped-octets 0 refused-blocks 0 cut-octets 0")
                    self.assertEqual((totals.frames, totals.status), (11, status))
                    self.assertEqual(copy.copy(totals), totals)

    def test_refusals(self):
        """Nothing is written."""
        output = self.folder / "out.tm"
        for options, said in ({}, ".* --length"), ({"length": 0}, "--length: 1 to"), ({"cltu": True, "lead": 1}, ".*--lead"):
            self.refused(2, f"^sllink-frames: {said}", sllink.station_frames, PASS, output, **options)
        self.refused(127, "isn't sllink-frames, .*SLLINK_FRAMES says", sllink.station_frames, PASS, output,
                     program=sllink.find_program())
        self.assertFalse(output.exists())
        program = self.program("echo frames; exit 1", "[ $1 != --version ] || { echo sllink-frames 1.0; exit; }\n")
        self.refused(3, "^sllink-frames: the counts are missing$", sllink.station_frames, PASS, output, program=program)
        self.assertRaises(TypeError, sllink.station_frames, PASS, 1, length=64)


class Merges(InAFolder):
    """The program sllink-merge."""

    def test_merges(self):
        """From each sort of recording and to each sort of output."""
        output = self.folder / "out.tm"
        with open(FOURTH, "rb") as opened:
            for recordings, to in (((THIRD, FOURTH), output), ((io.BytesIO(THIRD.read_bytes()), opened), io.BytesIO())):
                found = sllink.merge("tm", recordings, to, STATION)
                self.assertEqual(output.read_bytes() if to is output else to.getvalue(), FIRST.read_bytes())
                self.assertEqual((found.frames, found.packets, found.status, len(found.turns)), (11, 6, 0, 1))
                turn = found.turns[0]
                self.assertEqual((turn.first.only_here, turn.second.only_here, turn.in_both), (1, 1, 9))
                self.assertEqual(str(turn.first), "frames 10 only-here 1 skipped 0 repeats 0 left-out 0 rest 0 packets 4")
                self.assertRegex(str(turn), "^merge: frames 11 in-both 9 packets 6 outages 0 open 0 undecided 0 idle [0-9]+$")
                self.assertEqual(pickle.loads(pickle.dumps(found)), found)
        found = sllink.merge("tm", [SECOND, SECOND, SECOND], output, STATION)
        self.assertEqual([(it.first.skipped, it.first.rest, it.in_both) for it in found.turns], [(1, 19, 7), (0, 0, 7)])

    def test_refusals(self):
        """Nothing is written."""
        output = self.folder / "out.tm"
        for recordings, said in ((FIRST, SECOND), "no frame in common; sllink-identify "), ([FIRST], "required arguments"):
            self.refused(2, f"^sllink-merge: .*{said}", sllink.merge, "tm", recordings, output, STATION)
        self.refused(127, "isn't sllink-merge, .*SLLINK_MERGE says", sllink.merge, "tm", (FIRST, THIRD), output, STATION,
                     program=sllink.find_program())
        self.assertFalse(output.exists())
        program = self.program("echo frames >&2; exit 0", "[ $1 != --version ] || { echo sllink-merge 1.0; exit; }\n")
        self.refused(3, "^sllink-merge: the counts are missing$", sllink.merge, "tm", [], output, STATION, program=program)


class Identifications(InAFolder):
    """What a recording is."""

    def test_lines(self):
        """They are those of the tool, and its words are the kind and the options."""
        octets = FIRST.read_bytes()
        for path, read in ((FIRST, ("tm", STATION)),
                           (EXAMPLES / "plain.tc", ("tc", sllink.Options(1, plain=[5], vr_of={0: 0, 5: 57}))),
                           (self.file("short", octets[:64]), (None, None)),
                           (self.file("few", PASS.read_bytes()[:192]), (None, None)),
                           (self.file("shifted", octets[:100] + octets[110:]), (None, None)),
                           (self.file("packed", gzip.compress(octets)), (None, None)),
                           (self.file("empty", b""), (None, None))):
            with self.subTest(path=path):
                found = sllink.identify(path)
                self.assertEqual((found.kind, found.options), read)
                self.assertEqual(ran("sllink-identify", path), (0 if found.commands else 1, f"{path}: {found}\n"))
                words = f"{' '.join(found.words)}\n" if found.words else ""
                self.assertEqual(ran("sllink-identify", "--options", path), (0 if words else 1, words))
                self.assertEqual(found.why is None, bool(found.commands))
                self.assertLessEqual(bool(found.words), bool(found.commands))

    def test_paths(self):
        """The program isn't run."""
        found = sllink.identify(FIRST)
        with unittest.mock.patch("subprocess.Popen", side_effect=AssertionError):
            for path in str(FIRST), os.fsencode(FIRST):
                self.assertEqual(found, sllink.identify(path))
        self.assertEqual(found, pickle.loads(pickle.dumps(found)))
        with self.assertRaises(TypeError):
            sllink.identify(io.BytesIO())
        with self.assertRaises(dataclasses.FrozenInstanceError):
            found.why = "no"

    def test_no_file(self):
        os.mkfifo(self.folder / "pipe")
        opened = os.listdir("/proc/self/fd")
        for name, error in (("missing", FileNotFoundError), (".", IsADirectoryError), ("pipe", OSError)):
            with self.subTest(name=name), self.assertRaises(error) as raised:
                sllink.identify(self.folder / name)
            self.assertEqual(raised.exception.filename, str(self.folder / name))
        sllink.identify(FIRST)
        self.assertEqual(os.listdir("/proc/self/fd"), opened)


class Differences(Way):
    """What only one of two recordings has, and whether both have the same packets."""

    def found(self, one, other, *options, kind="tm", reordered=False):
        """The runs. Where there are none the packets are the same, but perhaps for their order."""
        runs = list(sllink.difference(kind, one, other, *options))
        for it in one, other:
            if hasattr(it, "seek"):
                it.seek(0)
        self.assertIs(sllink.same_packets(kind, one, other, *options, program=self.by), not (runs or reordered))
        return runs

    def test_runs(self):
        for one, other in itertools.product([FIRST, SECOND, THIRD], repeat=2):
            side = "" if one == other or THIRD not in (one, other) else "<" if other == THIRD else ">"
            runs = [sllink.Run(side, 1, None, 200, (0, 1), 2)] if side else []
            with open(one, "rb") as file:
                for recording in one, io.BytesIO(one.read_bytes()), file:
                    self.assertEqual(self.found(recording, other, STATION), runs)
            for run in runs:
                self.assertEqual(str(run), f"{side} vc 1 apid 200 counts 0..1 packets 2")
                self.assertEqual(pickle.loads(pickle.dumps(run)), run)

    def test_an_uplink(self):
        self.assertEqual(self.found(UPLINK, UPLINK, OF_UPLINK, kind="tc"), [])
        for empty in os.devnull, io.BytesIO():
            found = self.found(UPLINK, empty, OF_UPLINK, kind="tc")
            self.assertEqual({(it.side, it.vc, it.map) for it in found}, {("<", 0, 0), ("<", 1, 2)})
            self.assertEqual(sum(it.packets for it in found), written("packets", "tc", UPLINK, OF_UPLINK).count(b"\n"))

    def test_another_order(self):
        """Packets that both have aren't listed."""
        one, options = self.file("one", frames_of("abc")), sllink.Options(1, tm_length=32)
        for letters, runs in ("cba", []), ("ba", [sllink.Run("<", 0, None, 1, (99, 99), 1)]):
            self.assertEqual(self.found(one, self.file("other", frames_of(letters)), options, reordered=True), runs)

    def test_options_of_its_own(self):
        """A station that keeps the error control field."""
        keeps = self.file("keeps", frames_of("abc", fecf=True))
        options, its = sllink.Options(1, tm_length=32), sllink.Options(1, tm_length=34, tm_fecf=True)
        for letters, runs in ("abc", []), ("ac", [sllink.Run(">", 0, None, 1, (98, 98), 1)]):
            self.assertEqual(self.found(io.BytesIO(frames_of(letters)), keeps, options, its), runs)
        self.assertEqual(self.found(io.BytesIO(frames_of("cba")), keeps, options, its, reordered=True), [])
        self.assertNotEqual(self.found(io.BytesIO(frames_of("abc")), keeps, options), [])
        self.assertEqual(self.found(FIRST, SECOND, STATION, sllink.Options(1, 32, tm_fecf=True, vr=3)), [])
        for options in ["--scid", "x"], ["--spare"], ["--scid 1"], ["--hex"], ["-h"], []:
            self.refused(2, "^sllink-compare: ", sllink.difference, "tm", FIRST, THIRD, options)

    def test_names(self):
        """Of any octets, and like an option."""
        for name in b"\xff", b"line\nfeed", "Überflug".encode(), b"-h":
            path = os.path.join(os.fsencode(self.folder), name)
            shutil.copyfile(FIRST, path)
            self.assertEqual(len(self.found(path, THIRD, STATION)), 1)

    def test_what_is_kept(self):
        """Nothing is left behind, also where the loop is left; where there is no room for it that is an OSError."""
        with unittest.mock.patch.object(tempfile, "tempdir", str(self.folder)):
            runs = sllink.difference("tm", io.BytesIO(FIRST.read_bytes()), os.devnull, STATION)
            next(runs)
            self.assertEqual(len(list(self.folder.glob("sllink-*"))), 2)
            runs.close()
            self.assertEqual(list(self.folder.iterdir()), [])
        with unittest.mock.patch.object(tempfile, "tempdir", str(self.folder / "none")):
            self.assertRaises(OSError, self.found, FIRST, os.devnull, STATION)

    def test_what_it_says(self):
        """A program that stops, or says something else."""
        version = "[ $1 != --version ] || { echo sllink-compare 1.0.0; exit; }\n"
        for script, status, said in (("echo a; echo 'sllink-compare: read' >&2; exit 3", 3, "^sllink-compare: read$"),
                                     ("echo a; echo b; echo same", 3, "the answer is missing"), ("exit 0", 3, ""),
                                     ("kill -9 $$", -signal.SIGKILL, ""), ("exit 2", 2, "")):
            program = self.program(script, version)
            self.refused(status, said, sllink.difference, "tm", FIRST, THIRD, STATION, program=program)


if __name__ == "__main__":
    unittest.main()
