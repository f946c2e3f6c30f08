"""The alert rules and the board of examples/: the page of a node has each metric, each label and each value of a label
that they name, and the pages say what each alert and each metric is. Prometheus' own tool checks the rules and the
metrics, where it is there.
"""

from __future__ import annotations

import json
import re
import shutil
import subprocess
import unittest
from collections.abc import Iterator
from dataclasses import dataclass
from http.client import HTTPConnection

from harness import HOST, PATIENCE, ROOT, NodeTest, free_port
from test_page import Series, parse_metrics
from test_sctp import IMPATIENT, SctpPair

RULES = ROOT / "examples/prometheus_alerts.yml"
BOARD = ROOT / "examples/grafana_board.json"
PROMTOOL = shutil.which("promtool")
WITHOUT = "promtool isn't there (Debian: prometheus)"

# What Prometheus adds to each target that it scrapes: a metric, and labels of all metrics.
ADDED_METRIC, ADDED_LABELS = "up", {"instance", "job"}
FUNCTIONS = {"count", "increase", "max", "min", "rate", "sum", "vector"}
OPERATORS = {"and", "or", "unless"}

# Octets of the smallest congestion window, one packet (RFC 9260 §7.2.3).
LEAST_WINDOW = 1140

# A variable of the board stands for any value.
VARIABLE = "$instance"

# What each metric of a link has; SERVE says it once.
LINK_LABELS = {"link", "set", "adjacent"}


@dataclass(frozen=True)
class Named:
    """What an expression names: metrics, each with the labels that it picks by and their values; and labels of what
    comes out, by which it sorts or which are shown."""

    text: str
    picked: tuple[tuple[str, str, tuple[str, ...]], ...]
    metrics: frozenset[str]
    labels: frozenset[str]


def named(text: str, shown: str = "") -> Named:
    """Reads an expression of PromQL, and a text in which labels are shown as `{{link}}` or `{{ $labels.link }}`."""
    labels = {*re.findall(r"\{\{ *(?:\$labels\.)?(\w+) *\}\}", shown)}
    rest = re.sub(r"\[[^]]*\]", "", text)
    for found in re.finditer(r"\b(?:by|without|on|ignoring) *\(([^)]*)\)", rest):
        labels.update(re.findall(r"\w+", found[1]))
    rest = re.sub(r"\b(?:by|without|on|ignoring) *\([^)]*\)", "", rest)
    metrics, picked = set(), []
    for word, braces in re.findall(r"([a-zA-Z_:][\w:]*) *(?:\{([^}]*)\})?", rest):
        if word in FUNCTIONS | OPERATORS:
            continue
        metrics.add(word)
        for label, sign, value in re.findall(r'(\w+) *(=~|!~|!=|=) *"([^"]*)"', braces):
            picked.append((word, label, tuple(value.split("|")) if "~" in sign else (value,)))
    return Named(text, tuple(picked), frozenset(metrics), frozenset(labels))


def of_rules() -> dict[str, Named]:
    """What each alert names."""
    alerts = re.split(r"^ *- alert: ", RULES.read_text(encoding="utf-8"), flags=re.MULTILINE)[1:]
    return {it.split("\n", 1)[0]: named(re.search(r"^ *expr: (.*)$", it, re.MULTILINE)[1], it) for it in alerts}


def of_board() -> Iterator[Named]:
    """What each query of the board names."""
    board = json.loads(BOARD.read_text(encoding="utf-8"))
    for panel in board["panels"]:
        for target in panel["targets"]:
            yield named(target["expr"], target.get("legendFormat", ""))
    for variable in board["templating"]["list"]:
        for metric, label in re.findall(r"label_values\((\w+), (\w+)\)", variable.get("definition", "")):
            yield Named(variable["definition"], (), frozenset({metric}), frozenset({label}))


class Texts(unittest.TestCase):
    """The files by themselves."""

    def test_expressions_are_read(self) -> None:
        read = named('sum by (a) (rate(m{b="x",c=~"y|z"}[5m])) / on (d) n > 0.5', "{{e}} {{ $labels.f }}")
        self.assertEqual(read.metrics, {"m", "n"})
        self.assertEqual(read.picked, (("m", "b", ("x",)), ("m", "c", ("y", "z"))))
        self.assertEqual(read.labels, {"a", "d", "e", "f"})

    def test_each_alert_is_explained(self) -> None:
        page = (ROOT / "docs/OPERATING.md").read_text(encoding="utf-8")
        self.assertEqual([name for name in of_rules() if f"`{name}`" not in page], [])

    @unittest.skipUnless(PROMTOOL, WITHOUT)
    def test_rules_by_promtool(self) -> None:
        done = subprocess.run([PROMTOOL, "check", "rules", RULES], capture_output=True, text=True, timeout=PATIENCE)
        self.assertEqual(done.returncode, 0, done.stderr)


class Monitoring(NodeTest):
    """The files beside the page of a node over SCTP, on whose page each family has a sample: tries of its links failed,
    and an INIT was refused."""

    def setUp(self) -> None:
        super().setUp()
        self.port = free_port()
        pair = SctpPair(self, links=2, is_begun=False, sctp=IMPATIENT, near_page=self.port)
        pair.near.start()
        for name in pair.names:
            pair.near.await_log(f"fail {name} ")
        pair.near.ask("deactivate e0")
        pair.far.start()
        pair.near.await_log("refuse e0 .* unwanted")
        pair.near.ask("activate e0")
        pair.begin()
        pair.exchange(1)
        self.pair = pair
        # A changeover, for management messages of each way.
        pair.near.ask("deactivate e1")
        pair.near.await_log("link e1 deactivated")

    def text(self) -> str:
        connection = HTTPConnection(HOST, self.port, timeout=PATIENCE)
        self.addCleanup(connection.close)
        connection.request("GET", "/metrics")
        return connection.getresponse().read().decode()

    def test_how_associations_do(self) -> None:
        """Each link whose association is up has its round trip, its timeout within the bounds of the settings, and a
        window of one packet at least; the others have none of them."""
        values, _ = parse_metrics(self.text())
        names = ("stp_sctp_round_trip_seconds", "stp_sctp_retransmission_timeout_seconds",
                 "stp_sctp_congestion_window_octets")
        found = {(family, dict(pairs)["link"]): value for (family, pairs), value in values.items() if family in names}
        self.assertEqual(found.keys(), {(name, "e0") for name in names})
        most = IMPATIENT["rto_max_ms"] / 1000
        self.assertLessEqual(found[names[0], "e0"], most)
        self.assertLessEqual(IMPATIENT["rto_min_ms"] / 1000, found[names[1], "e0"])
        self.assertLessEqual(found[names[1], "e0"], most)
        self.assertGreaterEqual(found[names[2], "e0"], LEAST_WINDOW)

    def test_retransmissions(self) -> None:
        """Each link has how many chunks went out again, as the console counts them, also e1, whose association ended."""
        values, _ = parse_metrics(self.text())
        found = {dict(pairs)["link"]: value for (family, pairs), value in values.items()
                 if family == "stp_sctp_retransmissions_total"}
        counted = self.pair.near.counters()
        self.assertEqual(found, {name: counted[name]["retransmissions"] for name in self.pair.names})

    def test_changeovers(self) -> None:
        """The link that left service has changed over once. The other was deactivated before it was in service, and
        that is no changeover."""
        values, _ = parse_metrics(self.text())
        found = {dict(pairs)["link"]: value for (family, pairs), value in values.items()
                 if family == "stp_link_changeovers_total"}
        self.assertEqual(found, {"e0": 0, "e1": 1})

    def test_all_that_is_named_is_there(self) -> None:
        values, kinds = parse_metrics(self.text())
        queries = [*of_rules().values(), *of_board()]
        self.assertGreater(len(queries), 20)
        for query in queries:
            with self.subTest(query.text):
                self.check(query, values, kinds)

    def check(self, query: Named, values: dict[Series, float], kinds: dict[str, str]) -> None:
        own = query.metrics - {ADDED_METRIC}
        self.assertLessEqual(own, kinds.keys(), "a metric")
        labels = {metric: {} for metric in own}
        for metric, pairs in values:
            for label, value in pairs if metric in own else ():
                labels[metric].setdefault(label, set()).add(value)
        for metric in own:
            self.assertTrue(any(series[0] == metric for series in values), f"a sample of {metric}")
        for metric, label, picked in query.picked:
            if label in ADDED_LABELS:
                continue
            self.assertIn(label, labels[metric], f"a label of {metric}")
            self.assertLessEqual({*picked} - {VARIABLE}, labels[metric][label], f"values of {label} of {metric}")
        self.assertLessEqual(query.labels, ADDED_LABELS.union(*labels.values()), "labels")

    def test_each_metric_is_explained(self) -> None:
        """SERVE names each metric, with its labels, and no other."""
        values, kinds = parse_metrics(self.text())
        page = (ROOT / "docs/SERVE.md").read_text(encoding="utf-8")
        found = re.findall(r"`(stp_\w+)(?:\{([^}]*)\})?`", page)
        listed = {name: {*re.findall(r"\w+", labels)} for name, labels in found}
        self.assertEqual(listed.keys(), kinds.keys())
        for metric, pairs in values:
            labels = {label for label, _ in pairs}
            self.assertEqual(labels, listed[metric] | LINK_LABELS if "link" in labels else listed[metric], metric)

    @unittest.skipUnless(PROMTOOL, WITHOUT)
    def test_metrics_by_promtool(self) -> None:
        done = subprocess.run([PROMTOOL, "check", "metrics"], input=self.text(), capture_output=True, text=True,
                              timeout=PATIENCE)
        self.assertEqual((done.returncode, done.stdout, done.stderr), (0, "", ""))


if __name__ == "__main__":
    unittest.main()
