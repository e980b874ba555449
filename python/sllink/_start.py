"""Begins a tool: the scripts in tools/ run this file, with their path and the tool's name before its words."""

import os
import sys

sys.path[0] = os.path.dirname(os.path.dirname(__file__))     # in place of the folder of this file
sys.argv[:3], NAME = sys.argv[1:2], sys.argv[2]
try:
    import signal
    for stop in signal.SIGHUP, signal.SIGINT, signal.SIGTERM:    # until `run` takes over
        if signal.getsignal(stop) != signal.SIG_IGN:
            signal.signal(stop, lambda *_: os._exit(2))
    from importlib import import_module
    from sllink.tool import run
    tool = import_module(f"sllink._commands.{NAME[7:].replace('-', '_')}")
except KeyboardInterrupt:
    os._exit(2)
except (ImportError, OSError, MemoryError, SystemError, ValueError) as missing:
    print(f"{NAME}: {str(missing) or 'there is not enough memory'}", file=sys.stderr)
    sys.exit(2)

run(NAME, tool.main, tool.__doc__)
