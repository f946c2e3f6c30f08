"""The pictures of docs/, taken anew from the program: docs/page.png and docs/changeover.png.

    python3 tests/interop/pictures.py

It needs Chromium, which it drives through a pipe. Point 1 has three links to point 2 and two to point 3, and messages
pass both ways for a minute. Then point 2 is halted and a link to it deactivated, so that a changeover waits.
"""

from __future__ import annotations

import base64
import json
import math
import os
import signal
import subprocess
import sys
import tempfile
import time
from pathlib import Path
from typing import Any

HERE = Path(__file__).resolve().parent
sys.path[:0] = [str(HERE.parent)]

from frames import message  # noqa: E402
from harness import HOST, ROOT, Link, Node, free_port, settings, wait_until  # noqa: E402

NEAR, EAST, WEST = 1, 2, 3
WIDTH, HEIGHT = 1000, 900
# how long messages pass before the first picture, and before the second one, in seconds
SHOWN, CHANGING = 60, 4


class Browser:
    """A page in Chromium, over the pipe of its debugging protocol."""

    def __init__(self, folder: Path) -> None:
        to_browser, self.writing = os.pipe()
        self.reading, from_browser = os.pipe()
        words = ["chromium", "--headless", "--no-sandbox", "--remote-debugging-pipe", f"--user-data-dir={folder}"]
        moved = f"exec 3<&{to_browser} 4>&{from_browser}; exec \"$@\""
        self.process = subprocess.Popen(["bash", "-c", moved, "", *words], pass_fds=(to_browser, from_browser),
                                        stdin=subprocess.DEVNULL, stderr=subprocess.DEVNULL)
        self.number, self.rest = 0, b""
        target = self.ask("Target.createTarget", url="about:blank")["targetId"]
        self.session = self.ask("Target.attachToTarget", targetId=target, flatten=True)["sessionId"]
        self.ask("Emulation.setDeviceMetricsOverride", width=WIDTH, height=HEIGHT, deviceScaleFactor=1, mobile=False)

    def ask(self, method: str, **parameters: Any) -> dict[str, Any]:
        self.number += 1
        asked = {"id": self.number, "method": method, "params": parameters}
        if self.number > 2:
            asked["sessionId"] = self.session
        os.write(self.writing, json.dumps(asked).encode() + b"\0")
        while True:
            answer, end, self.rest = self.rest.partition(b"\0")
            if not end:
                self.rest = answer + os.read(self.reading, 1 << 16)
            elif (heard := json.loads(answer)).get("id") == self.number:
                assert "result" in heard, heard
                return heard["result"]

    def take_picture(self, file: Path, height: int) -> None:
        clip = {"x": 0, "y": 0, "width": WIDTH, "height": height, "scale": 1}
        taken = self.ask("Page.captureScreenshot", clip=clip, captureBeyondViewport=True)
        file.write_bytes(base64.b64decode(taken["data"]))


def submit(node: Node, opc: int, dpc: int, count: int) -> None:
    for number in range(count):
        node.ask(f"submit {message(opc, dpc, number % 16, number).hex()}")


def pass_messages(nodes: dict[int, Node], seconds: float) -> None:
    """Messages pass both ways, now more and now fewer, from each node that runs."""
    begun = time.monotonic()
    while (passed := time.monotonic() - begun) < seconds:
        much = 12 + round(6 * math.sin(passed / 6))
        for opc, dpc, count in ((NEAR, EAST, much), (NEAR, WEST, much // 3), (EAST, NEAR, much // 2)):
            if opc in nodes:
                submit(nodes[opc], opc, dpc, count)
        time.sleep(0.2)


def start(folder: Path, ports: list[int], page: int) -> dict[int, Node]:
    east = [Link(f"e{code}", EAST, code, ports[code], True) for code in range(3)]
    west = [Link(f"w{code}", WEST, code, ports[3 + code], True) for code in range(2)]
    ends = {NEAR: [*east, *west], EAST: [Link(it.name, NEAR, it.code, it.port, False) for it in east],
            WEST: [Link(it.name, NEAR, it.code, it.port, False) for it in west]}
    nodes = {}
    for point, links in ends.items():
        console = free_port()
        text = settings(point, links, version=4, console=console, page=page if point == NEAR else None)
        nodes[point] = Node(folder / str(point), text, console, links)
        nodes[point].start()
    wait_until(nodes[NEAR].is_at_rest, "all links are in service")
    return nodes


def main() -> None:
    with tempfile.TemporaryDirectory(prefix="pictures-", ignore_cleanup_errors=True) as name:
        folder, page = Path(name), free_port()
        nodes = start(folder, [free_port() for _ in range(5)], page)
        browser = Browser(folder / "browser")
        browser.ask("Page.navigate", url=f"http://{HOST}:{page}/")
        pass_messages(nodes, SHOWN)
        browser.take_picture(ROOT / "docs/page.png", 1360)
        nodes[EAST].signal(signal.SIGSTOP)
        nodes[NEAR].ask("deactivate e1")
        pass_messages({NEAR: nodes[NEAR]}, CHANGING)
        browser.take_picture(ROOT / "docs/changeover.png", 900)
        browser.process.kill()
        for node in nodes.values():
            node.kill()


if __name__ == "__main__":
    main()
