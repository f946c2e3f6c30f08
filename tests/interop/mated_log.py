"""What the log of one of a mated pair says while its neighbours fail and return, and an operator gives orders.

    python3 tests/interop/mated_log.py [FOLDER]

The nodes are those of restart_one.py. In turn a link of point 2 is deactivated and activated, the user's node 1 ends
as `kill -9` does and starts again, and point 3 stops in order and starts again, while messages pass. The logs of the
four nodes are left in FOLDER (a new one by default), and the last line is its path. Nothing is judged: the log is for
somebody to read who doesn't know what happened.
"""

from __future__ import annotations

import subprocess
import sys
import tempfile
import time
from pathlib import Path

HERE = Path(__file__).resolve().parent
sys.path[:0] = [str(HERE), str(HERE.parent)]

from harness import STP, Node, wait_until  # noqa: E402
from restart_one import Mated, Sender  # noqa: E402

# Messages a second, and how long messages pass between two happenings, in seconds.
RATE, BETWEEN = 100, 4.0


def await_service(mated: Mated) -> None:
    wait_until(mated.is_in_service, "all links are in service")
    time.sleep(BETWEEN)


def end_and_start(mated: Mated, name: str, is_in_order: bool) -> None:
    """A node ends, in order or not, and starts again after a while."""
    node = mated.nodes[name]
    if is_in_order:
        subprocess.run([STP, "tell", node.folder / "node.toml", "stop"], check=True, stdout=subprocess.DEVNULL)
        node.await_end()
    keep_log(node)
    node.kill()
    time.sleep(BETWEEN)
    mated.start(node)
    await_service(mated)


def keep_log(node: Node) -> None:
    """A node's log begins anew as it starts: what it has so far is kept beside it."""
    (node.folder / "log").rename(node.folder / "log.before")


def main() -> None:
    folder = Path(sys.argv[1]) if sys.argv[1:] else Path(tempfile.mkdtemp(prefix="mated-log-"))
    folder.mkdir(exist_ok=True)
    mated = Mated(folder)
    sender = Sender(mated.nodes["d"], 4, 2, RATE)
    time.sleep(BETWEEN)
    for order in ("deactivate ab", "activate ab"):
        mated.nodes["b"].ask(order)
        time.sleep(BETWEEN)
    await_service(mated)
    end_and_start(mated, "a", is_in_order=False)
    end_and_start(mated, "c", is_in_order=True)
    sender.finish()
    for node in mated.nodes.values():
        node.stop()
    print(folder)


if __name__ == "__main__":
    main()
