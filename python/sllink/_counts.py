"""Packets counted by virtual channel, MAP and APID."""

from typing import Dict, Iterable, List, Tuple

from ._records import Count, Packet

COUNTS = 16384                                            # of the packet sequence count
KNOWN = 1 << 14                                           # beginnings of lines that are kept

Key = Tuple[int, int, int]                                # virtual channel, MAP (-1 for TM), APID


class Tally:
    """The packets of an APID: how many, their octets, their first and last sequence count; how often the count isn't
    the one that comes next, and by how many packets it is then ahead, where it isn't behind."""

    __slots__ = ("packets", "octets", "first", "last", "jumps", "missing")

    def __init__(self, first: int) -> None:
        self.packets = self.octets = self.jumps = self.missing = 0
        self.first, self.last = first, first - 1

    def add(self, count: int, octets: int) -> None:
        """Counts a packet with this sequence count, of so many octets."""
        self.packets += 1
        self.octets += octets
        ahead = (count - self.last - 1) % COUNTS
        if ahead:
            self.jumps += 1
            self.missing += ahead if ahead < COUNTS // 2 else 0
        self.last = count


def counts(some: Iterable[Packet]) -> List[Count]:
    """How many packets there are of each virtual channel, MAP and APID, in rising order of these."""
    found: Dict[Key, Tally] = {}
    for packet in some:
        key = packet.vc, -1 if packet.map is None else packet.map, packet.apid
        tally = found.get(key) or found.setdefault(key, Tally(packet.count))
        tally.add(packet.count, len(packet.octets))
    return counted(found)


def counted(found: Dict[Key, Tally]) -> List[Count]:
    """The same of tallies."""
    return [Count(vc, None if map_id < 0 else map_id, apid, it.packets, it.octets, it.jumps)
            for (vc, map_id, apid), it in sorted(found.items())]


def tallied(listing: Iterable[bytes]) -> Dict[Key, Tally]:
    """The packets by channel and APID, by the lines of `packets`. ValueError: one is no such line."""
    found: Dict[Key, Tally] = {}
    known: Dict[bytes, Tally] = {}                        # by the first words of a line
    for line in listing:
        # vc V [map M] apid A type T secondary S flags F count C octets N DIGITS
        head, tail = line.split(b" count ", 1)
        digits, _, octets, _ = tail.split(b" ", 3)
        number = int(digits)
        tally = known.get(head)
        if tally is None:
            if len(known) == KNOWN:
                known.clear()
            tally = known[head] = found.setdefault(_key_of(head), Tally(number))
        tally.add(number, int(octets))
    return found


def _key_of(head: bytes) -> Key:
    """The channel and the APID of a packet, by the first words of its line."""
    words = head.split(b" ", 6)
    return (int(words[1]), int(words[3]), int(words[5])) if words[2] == b"map" else (int(words[1]), -1, int(words[3]))
