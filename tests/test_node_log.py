"""What the log says of links, sets, destinations, alarms and orders, and how its lines are written."""

import json
import os
import re
import signal
import socket
import time
from datetime import datetime, timedelta, timezone

from frames import Status, status_frame
from harness import HOST, Link, Node, NodeTest, free_port, links_between, wait_until
from traffic import FAR, NEAR, OTHER, Pair

# In ticks of 50 ms: a changeover ends soon if no link is left, as nobody answers it.
SOON = {"t1": 4, "t2": 6}

# Proving that lasts longer than from one look to the next.
PROVING = 10

# Messages of which the pool has room for ten.
POOL, MANY, FEW = 10, 8, 4

# More ticks than a round lets pass at once, in seconds.
PAUSE_SECONDS = 6

# Longer than a changeover takes, in milliseconds.
SLOW_TICK_MS = 1000

# In ticks of 50 ms: each answer to a test of a link is awaited for a second.
TESTS = {"slt1": 20, "slt2": 200}

SECONDS = r"\d+\.\d{3}"
# what a sentence about the settings begins with
SETTINGS = "node.toml: "

# A time in UTC (RFC 3339), and how it is read.
UTC, UTC_FORM = r"\d{4}-\d\d-\d\dT\d\d:\d\d:\d\d\.\d{3}Z", "%Y-%m-%dT%H:%M:%S.%fZ"

MILLISECOND = timedelta(milliseconds=1)


class Peer:
    """The peer of a link, at its connection."""

    def __init__(self, test: NodeTest, node: Node, link: Link) -> None:
        self.stream = socket.create_connection((HOST, link.port))
        test.addCleanup(self.stream.close)
        self.send(Status.ALIGNMENT)
        wait_until(lambda: node.links()[link.name][0] == "Aligned", "the link is aligned")
        self.send(Status.PROVING_NORMAL, Status.READY)

    def send(self, *statuses: Status) -> None:
        self.stream.sendall(b"".join(map(status_frame, statuses)))


class NodeLog(NodeTest):
    def alarms(self, node) -> list[str]:
        """The alarms that are raised, without the time."""
        rows = node.table("alarms")
        for row in rows:
            self.assertRegex(row["SINCE"], rf"^{SECONDS}$")
        return [row["ALARM"] for row in rows]

    def await_alarms(self, node, *names: str) -> None:
        wait_until(lambda: self.alarms(node) == [*names], f"the alarms {names}")

    def looked_at(self, **how) -> Pair:
        """A pair, once the log of each node has told that its links are in service, and what they lead to accessible.
        They are proved for longer than from one look to the next, so the first look finds them out of service."""
        pair = Pair(self, **{"l4": PROVING, **how})
        for node, adjacent in ((pair.near, FAR), (pair.far, NEAR)):
            for name in (*[f"link {name}" for name in pair.names], f"set to-{adjacent}", f"destination {adjacent}"):
                node.await_log(rf"clear {name} after {SECONDS} s$")
        return pair

    def met(self, **how) -> tuple[Node, Peer]:
        """A node of version 3 with a link, and its peer, which says that it is ready."""
        link = Link("s0", OTHER, 0, free_port(), True)
        node = self.node(NEAR, [link], version=3, l4=PROVING, **how)
        node.start()
        node.await_log("alarm link s0$")
        return node, Peer(self, node, link)

    def test_a_start(self) -> None:
        """At the first look each link, their set and what it leads to have an alarm."""
        node = self.node(NEAR, links_between([free_port()], FAR, True))
        node.start()
        names = ("link e0", f"set to-{FAR}", f"destination {FAR}")
        for name in names:
            node.await_log(f"alarm {name}$")
        self.await_alarms(node, *names)
        node.stop()
        self.assertEqual(node.logged("alarm "), 3)
        self.assertEqual(node.logged(f"set to-{FAR} unavailable$"), 1)
        self.assertEqual(node.logged("(clear|link|destination) "), 0)

    def test_a_link_under_test(self) -> None:
        """Until its first test has passed a link isn't available, though it is in service. Its peer answers none."""
        node, _peer = self.met(**TESTS)
        node.await_log(rf"link s0 under test after {SECONDS} s aligning$")
        self.assertEqual(node.links()["s0"][0], "InService")
        self.await_alarms(node, "link s0", f"set to-{OTHER}", f"destination {OTHER}")
        node.await_log("notice failed s0 test$")
        node.await_log(rf"link s0 (changing over|closing|not in service yet) after {SECONDS} s under test, ")
        self.assertEqual(node.logged("(clear|link s0 (in service|failed)) "), 0)

    def test_a_processor_outage(self) -> None:
        """A link is unavailable while the processor of its peer is out, and available while its peer is busy."""
        node, peer = self.met(processor_outage=True)
        node.await_log(rf"link s0 in service after {SECONDS} s aligning$")
        node.await_log(rf"clear link s0 after {SECONDS} s$")
        peer.send(Status.PROCESSOR_OUTAGE)
        for line in (rf"link s0 processor outage after {SECONDS} s in service$", f"set to-{OTHER} unavailable$"):
            node.await_log(line)
        self.assertEqual(node.links()["s0"][0], "InService")
        node.await_log("alarm link s0$", 2)
        peer.send(Status.PROCESSOR_RECOVERED)
        node.await_log(rf"link s0 in service after {SECONDS} s processor outage$")
        node.await_log(rf"clear link s0 after {SECONDS} s$", 2)
        before = node.logged("link s0 ")
        peer.send(Status.BUSY)
        time.sleep(0.5)
        self.assertEqual((node.logged("link s0 "), self.alarms(node)), (before, []))

    def test_a_short_changeover(self) -> None:
        """A changeover that begins and ends between two looks is told of with the next state of its link."""
        pair = Pair(self, tick_ms=SLOW_TICK_MS)
        for node in (pair.near, pair.far):
            node.await_log("link e1 in service ")
        self.assertEqual(pair.near.ask("deactivate e1"), ["handled"])
        pair.near.await_log(rf"link e1 deactivated after {SECONDS} s in service, changed over$")
        pair.far.await_log(rf"link e1 \w+ after {SECONDS} s in service, changed over$")

    def test_links_in_service(self) -> None:
        pair = Pair(self, l4=PROVING)
        for node, adjacent in ((pair.near, FAR), (pair.far, NEAR)):
            for name in pair.names:
                node.await_log(rf"link {name} aligning after {SECONDS} s not in service yet$")
                node.await_log(rf"link {name} in service after {SECONDS} s aligning$")
                node.await_log(rf"clear link {name} after {SECONDS} s$")
            node.await_log(rf"set to-{adjacent} available$")
            node.await_log(rf"clear set to-{adjacent} after {SECONDS} s$")
            node.await_log(rf"destination {adjacent} accessible by to-{adjacent}$")
            node.await_log(rf"clear destination {adjacent} after {SECONDS} s$")
            self.assertEqual(node.logged("alarm "), len(pair.names) + 2)
            self.assertEqual(self.alarms(node), [])

    def test_a_link_that_is_deactivated(self) -> None:
        pair = self.looked_at()
        self.assertEqual(pair.near.ask("deactivate e1"), ["handled"])
        pair.near.await_log("alarm link e1$", 2)
        pair.near.await_log(rf"link e1 deactivated after {SECONDS} s ")
        self.await_alarms(pair.near, "link e1")
        pair.far.await_log("alarm link e1$", 2)
        self.assertEqual(pair.near.ask("activate e1"), ["handled"])
        pair.near.await_log(rf"clear link e1 after {SECONDS} s$", 2)
        self.await_alarms(pair.near)
        for node in (pair.near, pair.far):
            self.assertEqual(node.logged("alarm (set|destination) "), 2)

    def test_a_node_that_ends(self) -> None:
        """Each link, the set and the destination have alarms, which are cleared as it returns; that of a flag stays."""
        pair = self.looked_at(**SOON)
        pair.far.kill()
        for name in pair.names:
            pair.near.await_log(f"alarm link {name}$", 2)
            pair.near.await_log(rf"link {name} changing over after {SECONDS} s in service, \d+ unconfirmed$")
            pair.near.await_log(rf"link {name} failed after {SECONDS} s changing over$")
        for line in (f"set to-{FAR} unavailable$", f"alarm set to-{FAR}$", f"alarm destination {FAR}$"):
            pair.near.await_log(line, 2)
        for line in (f"destination {FAR} inaccessible$", "alarm flag lost_any$"):
            pair.near.await_log(line)
        links = [f"link {name}" for name in pair.names]
        self.await_alarms(pair.near, "flag lost_any", *links, f"set to-{FAR}", f"destination {FAR}")
        pair.far.start()
        pair.await_service()
        self.await_alarms(pair.near, "flag lost_any")
        for name in (*links, f"set to-{FAR}", f"destination {FAR}"):
            self.assertEqual((pair.near.logged(f"alarm {name}$"), pair.near.logged(f"clear {name} ")), (2, 2), name)
        self.assertEqual((pair.near.logged("alarm flag lost_any$"), pair.near.logged("clear flag ")), (1, 0))

    def test_a_pool_that_is_nearly_full(self) -> None:
        pair = Pair(self, pool=POOL)
        pair.far.signal(signal.SIGSTOP)
        pair.forth.submit(FEW)
        time.sleep(0.5)
        self.assertEqual(pair.near.logged("alarm pool$"), 0)
        pair.forth.submit(MANY - FEW)
        pair.near.await_log("alarm pool$")
        self.await_alarms(pair.near, "pool")
        pair.far.signal(signal.SIGCONT)
        pair.near.await_log(rf"clear pool after {SECONDS} s$")
        pair.forth.settle()

    def test_a_node_that_is_behind(self) -> None:
        pair = Pair(self)
        pair.near.signal(signal.SIGSTOP)
        time.sleep(PAUSE_SECONDS)
        pair.near.signal(signal.SIGCONT)
        pair.near.await_log("alarm behind$")
        pair.near.await_log(rf"clear behind after {SECONDS} s$")

    def test_a_capture_that_fails(self) -> None:
        pair = Pair(self, capture="/dev/full")
        pair.near.await_log("alarm capture$")
        self.await_alarms(pair.near, "capture")

    def test_orders(self) -> None:
        """Each order is told of with who gave it, and its answer; messages and what is only shown aren't."""
        node = Pair(self).near
        caller = node.call()
        name = f"{HOST}:{caller.socket.getsockname()[1]}"
        for order, answer in (
            ("deactivate e1", "handled"),
            ("activate e1", "handled"),
            ("deactivate e9", "refused 22 NoSuchName"),
            ("title add 0 1 4 4917 2 ssn 6", "handled"),
            ("capture start", "ignored"),
        ):
            caller.write(order[:4])
            time.sleep(0.05)
            caller.write(order[4:] + "\r\n")
            self.assertEqual(caller.read_line(), answer)
            node.await_log(f"order {name} {order}: {answer}$")
        self.assertEqual(caller.ask(f"{'':200}deactivate  e2 "), ["handled"])
        node.await_log(f"order {name} deactivate  e2 : handled$")
        caller.ask("show links")
        caller.ask("submit 8501800010010010")
        self.assertEqual(node.logged("order "), 6)
        node.stop()
        self.assertEqual(node.logged(rf"order {HOST}:\d+ stop: stopping$"), 1)

    def test_a_flood_of_orders(self) -> None:
        """At most 20 of one kind in a second have a line, and the others are counted within the next. Another order has
        its line all the same."""
        node = Pair(self).near
        node.operator.write("capture stop\n" * 200 + "deactivate e1\n")
        node.operator.read_lines(201)
        node.await_log(r"order \S+ deactivate e1: handled$")

        def told() -> int:
            missed = [int(line.split()[2]) for line in node.log() if re.match(rf"{SECONDS} missed \d+ lines$", line)]
            return node.logged("order ") + sum(missed)

        wait_until(lambda: told() == 201, "201 orders, with those that were missed")
        self.assertLessEqual(node.logged("order "), 3 * 20 + 1)

    def test_the_journal(self) -> None:
        """Where systemd says that standard output is its journal, each line begins with its priority."""
        pair = Pair(self, **SOON, l4=PROVING)
        node = pair.near
        node.stop()
        log = node.folder / "log"
        there = log.stat()
        environment = {**os.environ, "JOURNAL_STREAM": f"{there.st_dev}:{there.st_ino}"}
        node.start(env=environment)
        for line in (rf"<5>{SECONDS} start 3 links", rf"<6>{SECONDS} console ", rf"<4>{SECONDS} alarm link e0$",
                     rf"<5>{SECONDS} link e0 in service ", rf"<5>{SECONDS} clear link e0 "):
            wait_until(lambda: any(re.match(line, it) for it in node.log()), line)
        for line in node.log():
            self.assertRegex(line, rf"^<[4-7]>{SECONDS} ")
        node.kill()
        node.start(env={**environment, "JOURNAL_STREAM": f"{there.st_dev}:{there.st_ino + 1}"})
        node.await_log("start 3 links")


class FormedLog(NodeTest):
    """A node whose settings say how its log is written."""

    def logging(self, **how: str) -> Node:
        """A node with a link that nobody opens, once its log has the alarms of its first look."""
        node = self.node(NEAR, links_between([free_port()], FAR, True), log=how)
        node.start()
        self.await_line(node, f"alarm destination {FAR}")
        return node

    def lines(self, text: str) -> list[str]:
        """The lines of the log in what a node wrote, which begins with what its settings are warned of."""
        return [line for line in text.splitlines() if not line.startswith(SETTINGS)]

    def log_of(self, node: Node) -> list[str]:
        return self.lines((node.folder / "log").read_text())

    def await_line(self, node: Node, text: str) -> None:
        wait_until(lambda: any(text in line for line in node.log()), text)


class LogTimes(FormedLog):
    def test_utc(self) -> None:
        """Each line begins with its time in UTC, by the clock of the system."""
        before = datetime.now(timezone.utc)
        node = self.logging(times="utc")
        after = datetime.now(timezone.utc)
        for line in self.log_of(node):
            self.assertRegex(line, rf"^{UTC} \w")
        told = [datetime.strptime(line.split()[0], UTC_FORM).replace(tzinfo=timezone.utc) for line in self.log_of(node)]
        self.assertEqual(told, sorted(told))
        self.assertLess(before - MILLISECOND, told[0])
        self.assertLessEqual(told[-1], after)

    def test_missed_lines(self) -> None:
        """So does the line that tells how many were missed."""
        node = self.logging(times="utc")
        node.operator.write("capture stop\n" * 200)
        node.operator.read_lines(200)
        wait_until(lambda: any(re.match(rf"{UTC} missed \d+ lines$", line) for line in self.log_of(node)), "missed lines")

    def test_seconds(self) -> None:
        """As without the key."""
        node = self.logging(times="seconds")
        for line in self.log_of(node):
            self.assertRegex(line, rf"^{SECONDS} \w")


class LogLeast(FormedLog):
    def told(self, node: Node) -> set[str]:
        """The first words of all lines."""
        return {line.split()[1] for line in self.log_of(node)}

    def test_warnings(self) -> None:
        """Nothing else has a line, nor is it counted among the lines that are missed."""
        node = self.logging(least="warning")
        self.assertEqual(self.told(node), {"alarm"})
        node.operator.write("capture stop\n" * 200)
        node.operator.read_lines(200)
        time.sleep(2)
        self.assertEqual(self.told(node), {"alarm"})

    def test_notices(self) -> None:
        node = self.logging(least="notice")
        self.await_line(node, f"set to-{FAR} unavailable")
        self.assertEqual(self.told(node), {"start", "set", "alarm"})

    def test_information(self) -> None:
        """Clients have no lines."""
        node = self.logging(least="info")
        self.await_line(node, f"set to-{FAR} unavailable")
        self.assertEqual(self.told(node), {"start", "listen", "console", "set", "alarm"})

    def test_all(self) -> None:
        node = self.logging(least="debug")
        for text in (f"set to-{FAR} unavailable", "caller "):
            self.await_line(node, text)
        self.assertEqual(self.told(node), {"start", "listen", "console", "caller", "set", "alarm"})


class LogForm(FormedLog):
    def test_json(self) -> None:
        """Each line is an object, whatever a text has."""
        name = 'near "1" \\ \u00e9.pcap'
        links = links_between([free_port()], FAR, True)
        node = self.node(NEAR, links, capture=name, log={"form": "json", "times": "utc"})
        node.start()
        self.await_line(node, f"alarm destination {FAR}")
        told = [json.loads(line) for line in self.log_of(node)]
        for line in told:
            self.assertEqual([*line], ["time", "severity", "text"])
            self.assertRegex(line["time"], f"^{UTC}$")
        severities = {line["text"]: line["severity"] for line in told}
        self.assertEqual(severities["start 1 links, tick 50 ms"], "notice")
        self.assertEqual(severities[f"capture {name}"], "info")
        self.assertEqual(severities["alarm link e0"], "warning")

    def test_seconds(self) -> None:
        """An object tells the seconds since the start, if no key says otherwise."""
        node = self.logging(form="json")
        for line in self.log_of(node):
            self.assertRegex(json.loads(line)["time"], f"^{SECONDS}$")

    def test_the_journal(self) -> None:
        """In the journal a priority stands in front of each object."""
        node = self.node(NEAR, links_between([free_port()], FAR, True), log={"form": "json", "least": "warning"})
        with open(node.folder / "journal", "wb") as log:
            there = os.fstat(log.fileno())
            node.start(stdout=log, env={**os.environ, "JOURNAL_STREAM": f"{there.st_dev}:{there.st_ino}"})
        journal = node.folder / "journal"
        wait_until(lambda: f"alarm destination {FAR}" in journal.read_text(), "an alarm")
        for line in self.lines(journal.read_text()):
            self.assertEqual(line[:4], "<4>{")
            self.assertEqual(json.loads(line[3:])["severity"], "warning")
