"""The status page of a node: what it shows, what else it answers, and clients that are slow or want too much.

Two nodes exchange messages all the while. Whatever clients of the page do, no link fails, and each message comes once
and in order.
"""

from __future__ import annotations

import contextlib
import json
import re
import signal
import socket
import time
from collections import Counter
from collections.abc import Iterable, Iterator
from http.client import HTTPConnection, HTTPResponse

from harness import HOST, PATIENCE, NodeTest, free_port, wait_until
from test_hostile_peers import allow_sockets
from traffic import FAR, Pair

MESSAGES = 64
PLACES = 32
ANSWERS_A_SECOND = 64
SLOW_CLIENTS = 1000
PATHS = {"/": "text/html; charset=utf-8", "/state.json": "application/json",
         "/metrics": "text/plain; version=0.0.4; charset=utf-8"}

# Seconds that a client has for its first request.
REQUEST_SECONDS = 5

# Requests of a client that never reads. What its sockets hold is less than the answers.
UNREAD = 2000

Series = tuple[str, frozenset[tuple[str, str]]]

# The labels of the one set that a pair has.
SET = {"set": f"to-{FAR}", "adjacent": str(FAR)}


def series(family: str, **labels: str) -> Series:
    """A metric with these labels."""
    return family, frozenset(labels.items())


def of_link(family: str, name: str, **labels: str) -> Series:
    """A metric of a link of a pair."""
    return series(family, link=name, **SET, **labels)


def alarms_in(values: dict[Series, float]) -> dict[str, float]:
    """Whether each alarm is raised that has a sample, by its name as the console writes it."""
    labels = {dict(pairs)["alarm"] + " " + dict(pairs)["name"]: value
              for (family, pairs), value in values.items() if family == "stp_alarm_raised"}
    return {name.strip(): value for name, value in labels.items()}


def parse_metrics(text: str) -> tuple[dict[Series, float], dict[str, str]]:
    """Reads Prometheus' text format 0.0.4: the value of each series, and the kind of each family. In front of the samples
    of a family are its HELP and its TYPE, once each; its samples are in one row, and no series comes twice."""
    assert text.endswith("\n"), "the last line has no line feed"
    values: dict[Series, float] = {}
    helps: dict[str, str] = {}
    kinds: dict[str, str] = {}
    family = None
    for line in text[:-1].split("\n"):
        if found := re.fullmatch(r"# HELP ([a-zA-Z_:][a-zA-Z0-9_:]*) ((?:[^\\\n]|\\\\|\\n)+)", line):
            family = found[1]
            assert family not in helps, f"two HELP lines of {family}"
            helps[family] = found[2]
        elif found := re.fullmatch(r"# TYPE ([a-zA-Z_:][a-zA-Z0-9_:]*) (counter|gauge)", line):
            assert found[1] == family and family not in kinds, f"TYPE of {found[1]} isn't behind its HELP"
            kinds[family] = found[2]
        else:
            read, value = parse_sample(line)
            assert read[0] == family and family in kinds, f"no HELP and TYPE in front of {line}"
            assert read not in values, f"twice: {line}"
            values[read] = value
    assert set(helps) == set(kinds)
    return values, kinds


def parse_sample(line: str) -> tuple[Series, float]:
    """Reads the line of a sample."""
    found = re.fullmatch(r"([a-zA-Z_:][a-zA-Z0-9_:]*)(?:\{(.*)\})? ([0-9]+(?:e-[36])?)", line)
    assert found, f"no sample: {line!r}"
    pairs = [*parse_labels(found[2] or "")]
    assert len(dict(pairs)) == len(pairs), f"a label comes twice: {line!r}"
    return (found[1], frozenset(pairs)), float(found[3])


def parse_labels(text: str) -> Iterator[tuple[str, str]]:
    """Reads the labels of a sample; in a value `\\\\`, `\\"` and `\\n` are escapes."""
    while text:
        found = re.match(r'([a-zA-Z_][a-zA-Z0-9_]*)="((?:[^"\\\n]|\\\\|\\"|\\n)*)"(?:,|$)', text)
        assert found, f"no label: {text!r}"
        yield found[1], re.sub(r"\\(.)", lambda it: "\n" if it[1] == "n" else it[1], found[2])
        text = text[found.end():]


class Client:
    """A client of the page that writes and reads octets."""

    def __init__(self, port: int, receive_octets: int | None = None) -> None:
        self.socket = socket.socket()
        if receive_octets is not None:
            self.socket.setsockopt(socket.SOL_SOCKET, socket.SO_RCVBUF, receive_octets)
        self.socket.settimeout(PATIENCE)
        self.socket.connect((HOST, port))

    def send(self, text: str) -> None:
        """Sends a text, if the node hasn't closed the connection."""
        with contextlib.suppress(ConnectionError):
            self.socket.sendall(text.encode())

    def read_rest(self) -> bytes:
        """Reads until the node closes the connection."""
        came = b""
        with contextlib.suppress(ConnectionResetError):
            while piece := self.socket.recv(1 << 16):
                came += piece
        return came

    def close(self) -> None:
        self.socket.close()


class PageTest(NodeTest):
    """A test of two nodes, the near one of which has a page."""

    # Whether any Host will do.
    is_open = False

    # Milliseconds of a tick, unless it is that of other tests.
    tick_ms: int | None = None

    def setUp(self) -> None:
        super().setUp()
        self.port = free_port()
        ticks = {} if self.tick_ms is None else {"tick_ms": self.tick_ms}
        self.pair = Pair(self, near_page=self.port, near_page_open=self.is_open, **ticks)
        self.near = self.pair.near

    def client(self, **how: int) -> Client:
        client = Client(self.port, **how)
        self.addCleanup(client.close)
        return client

    def get(self, path: str, method: str = "GET", hosts: Iterable[str] | None = None) -> tuple[HTTPResponse, bytes]:
        """Asks on a connection of its own. The page's own name is the one Host, unless others are named."""
        connection = HTTPConnection(HOST, self.port, timeout=PATIENCE)
        self.addCleanup(connection.close)
        connection.putrequest(method, path, skip_host=True)
        for host in [f"{HOST}:{self.port}"] if hosts is None else hosts:
            connection.putheader("Host", host)
        connection.putheader("Connection", "close")
        connection.endheaders()
        response = connection.getresponse()
        return response, response.read()

    def status(self, path: str, method: str = "GET", hosts: Iterable[str] | None = None) -> int:
        return self.get(path, method, hosts)[0].status

    def status_of(self, request: str) -> int:
        """The status of the first answer to what is sent."""
        client = self.client()
        client.send(request)
        answer = client.read_rest()
        client.close()
        found = re.match(rb"HTTP/1\.1 (\d{3}) ", answer)
        assert found, f"no answer: {answer[:80]!r}"
        return int(found[1])

    def state(self) -> dict:
        response, body = self.get("/state.json")
        self.assertEqual(response.status, 200)
        return json.loads(body)

    def metrics(self) -> tuple[dict[Series, float], dict[str, str]]:
        response, body = self.get("/metrics")
        self.assertEqual(response.status, 200)
        return parse_metrics(body.decode())

    def await_changeovers(self, *counts: int) -> None:
        """Waits until so many changeovers of each link are counted in the state. The metrics have the same counts, and
        as many lines of the log tell that one ended."""
        wait_until(lambda: tuple(it["changeovers"] for it in self.state()["links"]) == counts, f"changeovers {counts}")
        values, _ = self.metrics()
        for name, count in zip(self.pair.names, counts):
            self.assertEqual(values[of_link("stp_link_changeovers_total", name)], count, name)
            told = self.near.logged(rf"link {name} .* s (changing over|[a-z ]+, changed over)$")
            self.assertEqual(told, count, name)


class Page(PageTest):
    def setUp(self) -> None:
        super().setUp()
        self.addCleanup(self.check_links)

    def check_links(self) -> None:
        """Each message that was taken came once, and no link failed."""
        self.pair.exchange(MESSAGES)
        for node, flowing in ((self.pair.far, self.pair.forth), (self.near, self.pair.back)):
            self.assertEqual(sum(row["delivered"] for row in node.counters().values()), flowing.count())
        self.assertEqual(self.near.logged("(close|notice failed)"), 0)

    # ---- what is shown

    def test_the_state(self) -> None:
        """What the console shows is in the state, to the same values."""
        self.pair.exchange(MESSAGES)
        self.near.await_log(f"page {HOST}:{self.port}$")
        wait_until(lambda: self.near.is_at_rest(), "nothing is under way")
        state = self.state()
        links = [[it["name"], it["state"], str(it["waiting"]), str(it["fsn"]), str(it["bsn"])] for it in state["links"]]
        columns = ("LINK", "ALIGNMENT", "WAITING", "FSN", "BSN")
        self.assertEqual(links, [[row[column] for column in columns] for row in self.near.table("links")])
        routes = [{"DESTINATION": str(it["point"]), "STATUS": it["status"], "SETS TAKEN": "+".join(it["sets"]),
                   "ROUTES": " ".join(f"{way}:{status}" for way, status in zip(it["ways"], it["way_statuses"]))}
                  for it in state["routes"]]
        self.assertEqual(routes, self.near.table("routes"))
        self.assertEqual([(it["ways"], it["way_statuses"]) for it in state["routes"]], [([SET["set"]], ["allowed"])])
        flags = [f"flag lost_any {state['times_lost']}", f"flag late_any {state['times_late']}"]
        self.assertEqual(flags, self.near.ask("show flags"))
        losses = [f"loss messages_lost {state['messages_lost']}", f"loss times_broken {state['times_broken']}"]
        self.assertEqual(losses, self.near.ask("show losses"))
        self.assertEqual([f"rerouting times_rerouted {state['times_rerouted']}"], self.near.ask("show reroutings"))
        counted = {link["name"]: dict(counted_of(link)) for link in state["links"]}
        self.assertEqual(counted, {name: dict(row) for name, row in self.near.counters().items()})
        self.assertEqual(state["notices"], [])
        self.assertEqual({*state["notice_kinds"].values()}, {0})
        self.assertEqual((state["kept"], state["held"]), (0, 0))

    def test_the_metrics(self) -> None:
        """The metrics are in the text format, with the values of the console, and counters never fall."""
        self.pair.exchange(MESSAGES)
        wait_until(lambda: self.near.is_at_rest(), "nothing is under way")
        before, kinds = self.metrics()
        rows = self.near.counters()
        for (family, counter) in (("frames_received", "frames_in"), ("octets_sent", "octets_out"),
                                  ("messages_delivered", "delivered")):
            for name, row in rows.items():
                value = before[of_link(f"stp_{family}_total", name)]
                self.assertEqual(value, row[counter], f"{family} of {name}")
        for name in self.pair.names:
            self.assertEqual(before[of_link("stp_link_in_service", name)], 1)
        self.assertEqual(before["stp_pool_messages", frozenset()], 0)
        self.assertGreater(before["stp_pool_limit_messages", frozenset()], 0)
        self.pair.exchange(MESSAGES)
        after, _ = self.metrics()
        self.assertEqual(set(before), set(after))
        for it, value in before.items():
            if kinds[it[0]] == "counter":
                self.assertGreaterEqual(after[it], value, it)
        delivered = [(after, 1), (before, -1)]
        grown = sum(sign * values[of_link("stp_messages_delivered_total", name)]
                    for values, sign in delivered for name in self.pair.names)
        self.assertEqual(grown, MESSAGES)

    def test_the_alarms(self) -> None:
        """While all is well none is raised. Those of the node, of links and of sets are 0, those of destinations absent."""
        wait_until(lambda: self.near.table("alarms") == [], "no alarm is raised")
        self.assertEqual(self.state()["alarms"], [])
        names = ["flag lost_any", "flag late_any", "pool", "capture", "behind", f"set {SET['set']}",
                 *(f"link {name}" for name in self.pair.names)]
        self.assertEqual(alarms_in(self.metrics()[0]), dict.fromkeys(names, 0))

    def test_the_states_of_links(self) -> None:
        """The state of a link is that of the log, since the time of its line. Before that it was unavailable."""
        wait_until(lambda: self.near.table("alarms") == [], "each link was seen in service")
        values, _ = self.metrics()
        for link in self.state()["links"]:
            name = link["name"]
            lines = [line for line in self.near.log() if re.match(rf"\S+ link {name} ", line)]
            self.assertIn(f" link {name} {link['service']} ", lines[-1])
            self.assertEqual(link["service"], "in service")
            self.assertAlmostEqual(link["since_ms"] / 1000, float(lines[-1].split()[0]), delta=0.0015)
            unavailable = values[of_link("stp_link_unavailable_seconds_total", name)]
            self.assertAlmostEqual(unavailable, link["since_ms"] / 1000)
            self.assertEqual(values[of_link("stp_link_unavailabilities_total", name)], 0)
            self.assertEqual(values[of_link("stp_link_changeovers_total", name)], 0)
        self.assertEqual(values[series("stp_set_unavailabilities_total", **SET)], 0)
        first = min(link["since_ms"] for link in self.state()["links"])
        self.assertAlmostEqual(values[series("stp_set_unavailable_seconds_total", **SET)], first / 1000)

    def test_the_metrics_of_messages(self) -> None:
        """Messages are counted by service indicator where they came and went; those of none have no sample."""
        self.pair.exchange(MESSAGES)
        wait_until(lambda: self.near.is_at_rest(), "nothing is under way")
        values, _ = self.metrics()
        for family in ("stp_messages_received_total", "stp_messages_sent_total"):
            isup = [values.get(of_link(family, name, service="5"), 0) for name in self.pair.names]
            self.assertEqual(sum(isup), MESSAGES, family)
            services = {dict(pairs)["service"] for it, pairs in values if it == family}
            self.assertLessEqual(services, {"0", "1", "5"}, family)
        self.assertTrue(all(value > 0 for (family, _), value in values.items() if family.startswith("stp_management")))

    def test_the_metrics_of_routes(self) -> None:
        """Sets, destinations and routes: what they are while the links of their set are in service."""
        values, _ = self.metrics()
        destination = {"destination": str(FAR)}
        self.assertEqual(values[series("stp_set_available", **SET)], 1)
        self.assertEqual(values[series("stp_set_links_in_service", **SET)], len(self.pair.names))
        self.assertEqual(values[series("stp_destination_accessible", **destination)], 1)
        self.assertEqual(values[series("stp_destination_restricted", **destination)], 0)
        self.assertEqual(values[series("stp_route_in_use", **destination, **SET)], 1)

    def test_the_metrics_of_refusals(self) -> None:
        """A cause that was never counted has no sample, but for those that alerts name."""
        values, _ = self.metrics()
        causes = {dict(pairs)["cause"] for family, pairs in values if family == "stp_refused_total"}
        self.assertEqual(causes, {"PoolFull", "ShareFull"})
        names = self.pair.names
        self.assertEqual(sum(family == "stp_refused_total" for family, _ in values), len(causes) * len(names))
        self.assertEqual([it for it in values if it[0] in ("stp_inits_refused_total", "stp_tries_failed_total")], [])

    def test_the_metrics_of_datagrams(self) -> None:
        """A node without links over SCTP has none."""
        values, _ = self.metrics()
        for name in ("stp_datagrams_received_total", "stp_datagrams_sent_total", "stp_strangers_total"):
            self.assertEqual(values[series(name)], 0)

    def test_what_the_script_reads(self) -> None:
        """Each member that the script of the page reads is in the state."""
        script = self.get("/")[1].decode().split("<script>")[1]
        state = self.state()
        shown = {"state": state, "last": state, "link": state["links"][0], "old": state["links"][0],
                 "set": state["sets"][0], "route": state["routes"][0]}
        read = {(it, member) for it in shown for member in re.findall(rf"(?<![\w./]){it}\.(\w+)", script)}
        self.assertGreaterEqual({it for it, _ in read}, shown.keys())
        self.assertEqual([it for it in read if it[1] not in shown[it[0]]], [])

    def test_kinds_of_text(self) -> None:
        for path, kind in PATHS.items():
            response, body = self.get(path)
            self.assertEqual((response.status, response.getheader("content-type")), (200, kind))
            self.assertEqual(response.getheader("cache-control"), "no-store")
            self.assertEqual(response.getheader("content-length"), str(len(body)))
            self.assertTrue(body)

    def test_head(self) -> None:
        response, body = self.get("/", "HEAD")
        self.assertEqual((response.status, body), (200, b""))
        self.assertEqual(response.getheader("content-length"), str(len(self.get("/")[1])))

    # ---- what is refused

    def test_refusals(self) -> None:
        own = f"{HOST}:{self.port}"
        self.assertEqual(self.status("/", hosts=[]), 400)
        self.assertEqual(self.status("/", hosts=[own, own]), 400)
        self.assertEqual(self.status(f"http://{own}/"), 400)
        self.assertEqual(self.status("/", hosts=[f"localhost:{self.port}"]), 200)
        for foreign in ("example.org", f"example.org:{self.port}", "localhost", HOST, f"{HOST}:1"):
            self.assertEqual(self.status("/", hosts=[foreign]), 403, foreign)
        for path in ("/index.html", "/state.json/", "//", "/../state.json"):
            self.assertEqual(self.status(path), 404, path)
        for method in ("POST", "PUT", "DELETE", "OPTIONS", "PATCH"):
            response, _ = self.get("/state.json", method)
            self.assertEqual((response.status, response.getheader("allow")), (405, "GET, HEAD"), method)

    def test_no_order_is_given(self) -> None:
        """Nothing that is sent to the page is a line of the console."""
        body = "deactivate e1\nstop\n"
        request = f"POST / HTTP/1.1\r\nHost: {HOST}:{self.port}\r\nContent-Length: {len(body)}\r\n\r\n{body}"
        self.assertEqual(self.status_of(request), 413)
        self.assertEqual(self.status_of(body), 400)
        self.assertEqual([state for state, _ in self.near.links().values()], ["InService"] * 3)

    def test_a_long_head(self) -> None:
        start = f"GET / HTTP/1.1\r\nHost: {HOST}:{self.port}\r\nConnection: close\r\nX: "
        self.assertEqual(self.status_of(f"{start}{'x' * 7000}\r\n\r\n"), 200)
        self.assertEqual(self.status_of(f"{start}{'x' * 10_000}\r\n\r\n"), 431)
        self.assertEqual(self.status_of(f"GET /{'x' * 10_000}"), 414)

    # ---- clients that are slow, or want too much

    def test_a_thousand_slow_clients(self) -> None:
        allow_sockets(SLOW_CLIENTS + 100)
        clients = []
        for number in range(SLOW_CLIENTS):
            client = self.client()
            client.send("GET / HTTP/1.1\r\nHost: "[: 1 + number % 24])
            clients.append(client)
            if number % 100 == 0:
                self.pair.exchange(MESSAGES)
        self.pair.exchange(MESSAGES)
        for client in clients:
            client.read_rest()
        self.assertEqual(self.status("/state.json"), 200)

    def test_a_client_that_never_reads(self) -> None:
        """It is cut off, while others are answered."""
        deaf = self.client(receive_octets=4096)
        request = f"GET /metrics HTTP/1.1\r\nHost: {HOST}:{self.port}\r\n\r\n"
        deaf.socket.settimeout(1)
        with contextlib.suppress(TimeoutError, ConnectionError):
            for _ in range(UNREAD):
                deaf.socket.sendall(request.encode())
        self.assertEqual(self.status("/state.json"), 200)
        self.pair.exchange(MESSAGES)
        deaf.socket.settimeout(PATIENCE)
        wait_until(lambda: is_cut(deaf.socket), "the client is cut off")

    def test_one_too_many(self) -> None:
        """It takes the place of the one that was idle longest."""
        start = time.monotonic()
        clients = [self.client() for _ in range(PLACES)]
        self.assertEqual(self.status("/state.json"), 200)
        self.assertEqual(clients[0].read_rest(), b"")
        self.assertLess(time.monotonic() - start, REQUEST_SECONDS, "it is closed before its time is over")
        self.pair.exchange(MESSAGES)

    def test_a_silent_client(self) -> None:
        client = self.client()
        start = time.monotonic()
        self.assertEqual(client.read_rest(), b"")
        self.assertGreater(time.monotonic() - start, REQUEST_SECONDS - 1)

    def test_many_requests(self) -> None:
        """So many are answered in a second; the others wait for the next."""
        connection = HTTPConnection(HOST, self.port, timeout=PATIENCE)
        self.addCleanup(connection.close)
        start = time.monotonic()
        for _ in range(4 * ANSWERS_A_SECOND):
            connection.request("GET", "/state.json")
            response = connection.getresponse()
            response.read()
            self.assertEqual(response.status, 200)
        # They are answered in four seconds of the node's clock, the middle two of which are whole.
        self.assertGreater(time.monotonic() - start, 2)


class PageOfFailures(PageTest):
    """What is shown where links fail."""

    def test_notices(self) -> None:
        """A notice has the number and the text that the console shows, and the time that is in the log; each kind is
        counted."""
        for number, name in enumerate(self.pair.names, 1):
            self.near.ask(f"deactivate {name}")
            self.near.await_log("notice failed", number)
        wait_until(lambda: len(self.near.ask("show notices")) >= 3 and self.has_all(), "all notices are shown")
        state = self.state()
        self.assertEqual([it["text"] for it in state["notices"]], self.near.ask("show notices"))
        self.assertEqual([it["number"] for it in state["notices"]], [*range(1, state["notice_count"] + 1)])
        logged = [line.split(" notice ") for line in self.near.log() if " notice " in line]
        self.assertEqual([it["text"] for it in state["notices"]], [text for _, text in logged])
        for it, (seconds, _) in zip(state["notices"], logged):
            self.assertLess(abs(it["time_ms"] - 1000 * float(seconds)), 250, it["text"])
        kinds = Counter(it["text"].split()[0] for it in state["notices"])
        self.assertEqual({kind: count for kind, count in state["notice_kinds"].items() if count}, kinds)
        values, _ = self.metrics()
        for kind, count in state["notice_kinds"].items():
            self.assertEqual(values["stp_notices_total", frozenset({("kind", kind)})], count, kind)
        self.assertEqual([it["state"] for it in state["links"]], ["Down"] * 3)
        for name in self.pair.names:
            self.assertEqual(values[of_link("stp_link_in_service", name)], 0)
            self.assertEqual(values[of_link("stp_link_failures_total", name, reason="operator")], 1)
        self.assertEqual(values[series("stp_set_available", **SET)], 0)
        self.assertEqual(values[series("stp_set_links_in_service", **SET)], 0)
        self.assertEqual(values[series("stp_destination_accessible", destination=str(FAR))], 0)
        self.assertEqual(values[series("stp_route_in_use", destination=str(FAR), **SET)], 0)

        script = self.get("/")[1].decode()
        read = re.search(r"const \{ (.*) \} of state\.notices", script)
        assert read, "the script of the page reads no notices"
        self.assertLessEqual({*read[1].split(", ")}, state["notices"][0].keys())

    def test_alarms(self) -> None:
        """Those that are raised are those that the console shows, since the same time, and each has a sample of 1. A
        link's state is its word of the log, and it was unavailable twice: at the start, and now."""
        wait_until(lambda: self.near.table("alarms") == [], "each link was seen in service")
        for name in self.pair.names:
            self.near.ask(f"deactivate {name}")
        down = {f"link {name}" for name in self.pair.names} | {f"set {SET['set']}", f"destination {FAR}"}
        wait_until(lambda: down <= {row["ALARM"] for row in self.near.table("alarms")},
                   "all alarms are raised")
        out = {"changing over", "deactivated"}
        wait_until(lambda: {it["service"] for it in self.state()["links"]} <= out, "all links are out")
        state = self.state()
        self.assertEqual([{"ALARM": it["name"], "SINCE": f"{it['since_ms'] / 1000:.3f}"} for it in state["alarms"]],
                         self.near.table("alarms"))
        before, _ = self.metrics()
        raised = {name for name, value in alarms_in(before).items() if value == 1}
        self.assertEqual(raised, {it["name"] for it in state["alarms"]})
        script = self.get("/")[1].decode()
        read = {*re.findall(r"(?<![\w./])alarm\.(\w+)", script)}
        self.assertEqual(read, state["alarms"][0].keys())
        for name in self.pair.names:
            self.assertEqual(before[of_link("stp_link_unavailabilities_total", name)], 1)
        self.assertEqual(before[series("stp_set_unavailabilities_total", **SET)], 1)
        wait_until(lambda: self.has_grown(before), "the time that each is unavailable grows")

    def has_grown(self, before: dict[Series, float]) -> bool:
        """Whether the node, its set and each link were unavailable for longer by now."""
        times = [of_link("stp_link_unavailable_seconds_total", name) for name in self.pair.names]
        times.append(series("stp_set_unavailable_seconds_total", **SET))
        values, _ = self.metrics()
        return all(values[it] > before[it] for it in times)

    def test_a_changeover_by_kind(self) -> None:
        """A link that is deactivated changes over: one order went out and one acknowledgement came, by other links."""
        name = self.pair.names[0]
        self.near.ask(f"deactivate {name}")
        wait_until(lambda: self.near.links()[name][0] == "Down" and not self.state()["links"][0]["changing_over"],
                   "the changeover is over")
        values, _ = self.metrics()
        for family, message in (("stp_management_sent_total", "XCO"), ("stp_management_received_total", "XCA")):
            counts = [values.get(of_link(family, other, message=message), 0) for other in self.pair.names]
            self.assertEqual((counts[0], sum(counts)), (0, 1), message)

    def has_all(self) -> bool:
        """Whether the page has the notices of the log."""
        return self.state()["notice_count"] == self.near.logged("notice ")

    def test_the_pool(self) -> None:
        """Messages that the peer doesn't confirm are in the pool."""
        self.pair.exchange(MESSAGES)
        wait_until(lambda: self.near.is_at_rest(), "nothing is under way")
        self.pair.far.signal(signal.SIGSTOP)
        try:
            self.pair.forth.submit(MESSAGES)
            state = self.state()
            values, _ = self.metrics()
        finally:
            self.pair.far.signal(signal.SIGCONT)
        self.assertEqual((state["kept"], state["held"]), (MESSAGES, 0))
        self.assertEqual(sum(it["waiting"] for it in state["links"]), MESSAGES)
        self.assertEqual(values["stp_pool_messages", frozenset()], MESSAGES)
        self.assertEqual(values["stp_pool_limit_messages", frozenset()], state["pool"])
        self.pair.forth.settle()

    def test_a_changeover(self) -> None:
        """While the peer doesn't acknowledge a changeover, it isn't over, and user messages are held; management
        is in the queues of links, and isn't in the pool. It is counted as it ends, and once; and so is the next."""
        self.pair.exchange(MESSAGES)
        wait_until(lambda: self.near.is_at_rest(), "nothing is under way")
        name = self.pair.names[0]
        self.near.await_log(f"link {name} in service after ")
        self.pair.far.signal(signal.SIGSTOP)
        try:
            self.near.ask(f"deactivate {name}")
            self.pair.forth.submit(MESSAGES)
            state = self.state()
            values, _ = self.metrics()
        finally:
            self.pair.far.signal(signal.SIGCONT)
        self.assertEqual([it["changing_over"] for it in state["links"]], [True, False, False])
        self.assertEqual([it["changeovers"] for it in state["links"]], [0, 0, 0])
        for it in state["links"]:
            self.assertEqual(values[of_link("stp_link_changing_over", it["name"])], it["changing_over"], it["name"])
        self.assertGreater(state["held"], 0)
        self.assertEqual(values["stp_held_messages", frozenset()], state["held"])
        self.assertEqual((state["kept"], values["stp_pool_messages", frozenset()]), (MESSAGES, MESSAGES))
        self.assertGreater(state["held"] + sum(it["waiting"] for it in state["links"]), MESSAGES)
        self.pair.forth.settle()
        wait_until(lambda: not any(it["changing_over"] for it in self.state()["links"]), "the changeover is over")
        self.assertEqual((self.state()["held"], self.state()["kept"]), (0, 0))
        self.near.await_log(f"link {name} deactivated after ")
        self.await_changeovers(1, 0, 0)
        self.near.ask(f"activate {name}")
        self.near.await_log(f"link {name} in service after ", 2)
        self.near.ask(f"deactivate {name}")
        self.near.await_log(f"link {name} deactivated after ", 2)
        self.await_changeovers(2, 0, 0)


class PageOfSlowTicks(PageTest):
    """A page of a node whose ticks are longer than a changeover takes."""

    tick_ms = 1000

    def test_a_short_changeover(self) -> None:
        """A changeover that begins and ends between two looks is counted, too, and once."""
        name = self.pair.names[1]
        self.near.await_log(f"link {name} in service after ")
        self.near.ask(f"deactivate {name}")
        self.near.await_log(f"link {name} deactivated after .* s in service, changed over$")
        self.await_changeovers(0, 1, 0)


class OpenPage(PageTest):
    """A page that may be asked for by any name."""

    is_open = True

    def test_a_foreign_name(self) -> None:
        for host in ("example.org", f"example.org:{self.port}", f"{HOST}:{self.port}"):
            self.assertEqual(self.status("/state.json", hosts=[host]), 200, host)
        self.assertEqual(self.status("/state.json", hosts=[]), 400)
        self.assertEqual(self.status("/state.json", "POST", hosts=["example.org"]), 405)


def counted_of(link: dict) -> Iterator[tuple[str, int]]:
    """The counters of a link as the console names them."""
    for name in ("frames_in", "octets_in", "frames_out", "octets_out", "forwarded", "delivered", "retries",
                 "retransmissions"):
        yield name, link[name]
    for group in ("refused", "failed", "inits", "tries"):
        for name, value in link[group].items():
            yield f"{group}_{name}", value


def is_cut(it: socket.socket) -> bool:
    """Whether the other end has closed a connection of which nothing is read."""
    try:
        it.send(b"\r\n", socket.MSG_DONTWAIT)
    except BlockingIOError:
        return False
    except OSError:
        return True
    return False
