"""Reads recordings of TM and TC transfer frames by the program sllink, line by line as they come.

    import sllink

    options = sllink.Options(scid=1, tm_length=32, tm_fecf=True)
    for packet in sllink.packets("tm", "pass.tm", options):
        print(packet.vc, packet.apid, packet.count, packet.octets.hex())

A recording is a path, an open file descriptor, or a binary file object. Options are an Options or a sequence of words
as they stand on the command line of the program. The program is the one of the keyword `program`, else $SLLINK, else
`sllink` on the PATH, else the one installed with this module or built in the repository. Where it is a Library, that
reads the recording in this process.

`identify` says what the recording of a path is, and with which options it is read; the program isn't run.
`station_frames` runs sllink-frames, which writes the recording out of a station's file, and `merge` sllink-merge, which
merges recordings of one pass.

OSError: the recording can't be opened, or the output not written. SllinkError: the program refused something or
stopped, or Options would be refused. What came before it is the beginning of the listing.
"""

__version__ = "2.0.0"

from ._counts import counts
from ._fault import SllinkError
from ._identify import Identification, identify
from ._library import Library, Recording
from ._merge import merge
from ._options import Options, Words
from ._program import find_program, lines
from ._read import Anomalies, anomalies, difference, frames, normal_form, packets, same_packets, station_frames
from ._records import Anomaly, Clcw, Count, Frame, Merge, MergeSide, MergeTurn, Packet, Remainder, Run, Skip, StationTotals
from ._records import TcFrame, TmFrame, Totals

__all__ = [
    "Anomalies", "Anomaly", "Clcw", "Count", "Frame", "Identification", "Library", "Merge", "MergeSide", "MergeTurn",
    "Options", "Packet", "Recording", "Remainder", "Run", "Skip", "SllinkError", "StationTotals", "TcFrame", "TmFrame",
    "Totals", "Words", "anomalies", "counts", "difference", "find_program", "frames", "identify", "lines", "merge",
    "normal_form", "packets", "same_packets", "station_frames",
]

for _name in __all__:
    if isinstance(globals()[_name], type):
        globals()[_name].__module__ = __name__               # where it is public, as it prints
