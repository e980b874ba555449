"""Random command lines for tests/model/cases.py: usual ones, those with refused values, and those with odd words."""

VERBS = b"show", b"check", b"packets", b"normalise"
GREATEST_LIMIT = 2 ** 64 - 1
# The options by name, each with its value where it isn't given.
DEFAULTS = {"scid": None, "tm-length": 1115, "tc-length": 1024, "tm-fecf": False, "tc-fecf": False, "window": 10,
            "vr": 0, "vr-of": {}, "plain": [], "limit": 1 << 30}
NAMES = [name.encode() for name in DEFAULTS]
FLAGS, LISTS = (b"tm-fecf", b"tc-fecf"), (b"vr-of", b"plain")

# Values that are refused, or nearly: by the command line, or as managed parameters.
REFUSED = {
    b"scid": (b"1024", b"65535", b"65536", b"-1"),
    b"tm-length": (b"0", b"31", b"2049", b"65535", b"65536"),
    b"tc-length": (b"0", b"15", b"1025", b"65535", b"65536"),
    b"window": (b"0", b"1", b"11", b"255", b"256"),
    b"vr": (b"256", b"-1"),
    b"limit": (b"0", b"18446744073709551616", b"-1"),
    b"plain": (
        b"", b"-", b"64", b"5,5", b"6,5", b"5,", b",5", b"05", b"00", b"-0", b"-1", b"+5", b" 5", b"5 ", b"5, 6",
        b"5-7", b"5;6", b"5:6", b"x", b"0x5", b"5\n", b"1,2,300", b"\xd9\xa5", b"18446744073709551616"),
    b"vr-of": (
        b"", b"-", b"5", b"5:256", b"5:-1", b"5:1,5:2", b"6:1,5:2", b"64:0", b"5:", b":5", b"5:1:2", b"05:1", b"5:01",
        b"5:1,", b",5:1", b"5:1, 6:1", b"5:+1", b"+5:1", b"5=1", b"x", b"5:1,6", b"-1:5", b"5:18446744073709551616"),
}
ODD_NUMBERS = (
    b"", b"-", b"--", b"+", b"-0", b"-00", b"+0", b"++1", b"+-1", b"-+0", b"-1", b"1_0", b"0x1", b"1.0", b"1e1", b" 1",
    b"1 ", b"1\n", b"1,2", b"x", b"\xd9\xa1", b"0" * 300 + b"1", b"00256", b"255", b"256", b"65535", b"65536",
    b"18446744073709551615", b"18446744073709551616", b"-h", b"--help", b"--scid")
ODD_WORDS = (
    b"", b"-", b"--", b"---", b"-h", b"--help", b"help", b"-V", b"--version", b"-hV", b"-hx", b"-VV", b"-V=1",
    b"--help=1", b"--version=", b"-x", b"-1", b"-0", b"--scid", b"--sci", b"--SCID", b"-scid", b"-s", b"--tm-fecf",
    b"--tm-fecf=1", b"--tc-fecf=", b"--tm_length", b"--tm-len", b"--limit", b"--plain", b"--plain=5", b"--plain==5",
    b"--vr-of", b"tm", b"tc", b"aos", b"TM", b"show", b"check", b"packets", b"normalise", b"normalize", b"shows", b"1",
    b"--=", b"--=1", b"-=", b"=", b"\xff", b"\xc3", b"\xc3\xa9", b"--\xc3\xa9", b"\xed\xa0\x80", b"--scid=\xff",
    b"--plain=\xff")


def options_of(rng, kind, link):
    """The options of a link, as pairs of name and value. Most options of the other kind are left out."""
    texts = {**link, "tm-fecf": "", "tc-fecf": "", "plain": ",".join(map(str, link["plain"])),
             "vr-of": ",".join(f"{vc}:{vr}" for vc, vr in sorted(link["vr-of"].items()))}
    others = "tc" if kind == b"tm" else "tm"
    without_others = rng.random() < 0.7
    options = []
    for name, default in DEFAULTS.items():
        given = link[name] != default or isinstance(default, int) and default and rng.random() < 0.1
        if given and not (without_others and name.startswith(others)):
            options.append((name.encode(), str(texts[name]).encode()))
    return options


def refused_values(rng, options):
    """The options, with one to three values that are refused, or nearly."""
    names = rng.sample(list(REFUSED), rng.choice((1, 1, 2, 3)))
    return [pair for pair in options if pair[0] not in names] + [(name, rng.choice(REFUSED[name])) for name in names]


def limited(rng, options, octets, recordings):
    """The options, with a limit about the length of the recording, and perhaps, but for `recordings`, below it."""
    room = rng.choice((0, 0, 1, GREATEST_LIMIT - octets) + (() if recordings else (-1, -1, -octets // 2, 1 - octets)))
    limit = str(max(octets + room, 1)).encode()
    return [pair for pair in options if pair[0] != b"limit"] + [(b"limit", limit)]


def number_word(rng, value, joined):
    """A decimal number in one of its forms."""
    style = rng.random()
    if style < 0.8 or not value.isdigit():
        return value
    if joined and value == b"0" and style < 0.9:
        return b"-0"
    return rng.choice((b"+", b"0", b"+0", b"0000", b"+000000000000000000000")) + value


def usual_words(verb, kind, options):
    """The words of a command line in one form: the options after the kind, each value after its option."""
    words = [verb, kind]
    for name, value in options:
        words += [b"--" + name] if name in FLAGS else [b"--" + name, value]
    return words


def words_of(rng, verb, kind, options):
    """The words of a command line in any form that isn't refused."""
    given = []
    for name, value in options:
        joined = rng.random() < 0.5 or value[:1] == b"-"
        if name in FLAGS:
            given.append([b"--" + name])
            continue
        if name not in LISTS:
            value = number_word(rng, value, joined)
        given.append([b"--" + name + b"=" + value] if joined else [b"--" + name, value])
    rng.shuffle(given)
    place = 0 if rng.random() < 0.7 else rng.randint(0, len(given))
    last = place == len(given) and rng.random() < 0.2
    given.insert(place, [b"--", kind] if last else [kind])
    return [verb] + sum(given, [])


def odd_words(rng, words):
    """The words, with one or two changes, after which most are refused."""
    words = list(words)
    for _ in range(rng.choice((1, 1, 1, 2))):
        place = rng.randrange(len(words)) if words else 0
        word = words[place] if words else b""
        option, number, odd = b"--" + rng.choice(NAMES), rng.choice(ODD_NUMBERS), rng.choice(ODD_WORDS)
        words[place:place + 1] = rng.choice((
            [], [word, word], [word, odd], [odd, word], [odd], [number], word.split(b"=", 1),
            [word.split(b"=")[0] + b"=" + number], [word[:-1]], [word + b"x"], [word, option],
            [option + b"=" + number, word], [word, option, number]))
    if rng.random() < 0.1:
        rng.shuffle(words)
    return words
