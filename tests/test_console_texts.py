"""What a served console shows of timers, sets, links and settings, and titles that it tests."""

from __future__ import annotations

import re

from harness import HOST, Link, Node, NodeTest, free_port, run, wait_until
from traffic import FAR, NEAR, Pair

REFUSED = 1
ALONE, UNKNOWN_POINT, MATE = 9, 77, 3

# A node with each key of settings, and no number twice. Two rows have a backup, and two change titles.
NODE = """\
version = 4
own = "2-017-5"
network = 3
window = 129
pool = 1001
extended_unitdata = true
subsystem_tests = true
user_part_unavailable = false
processor_outage = true
out_of_service = false
changeover_by_any_route = true
users = [
    4,
    5,
    15,
]
subsystems = [
    8,
    255,
]

[timers]
l1 = 2000
l2 = 2001
l3 = 2002
l4 = 2003
l4e = 2004
l6 = 2005
l7 = 2006
t1 = 2007
t2 = 2008
t2_bar = 60000
t3 = 2009
t4 = 2010
t6 = 2011
t8 = 2012
t10 = 2013
slt1 = 2014
slt2 = 2015
sst = 2016

[[set]]
name = "a_rather-long.name_of_32_letters"
adjacent = "0-000-2"

[[set]]
name = "west"
adjacent = "0-000-3"

[[link]]
name = "e0"
set = "a_rather-long.name_of_32_letters"
slc = 0
share = 333

[[link]]
name = "w0"
set = "west"
slc = 15

[[destination]]
point = "0-000-2"
sets = [
    "a_rather-long.name_of_32_letters",
]
joined = false

[[destination]]
point = "0-000-3"
sets = [
    "west",
    "a_rather-long.name_of_32_letters",
]
joined = true

[[title]]
translation = 0
plan = 1
nature = 4
digits = "49"
point = "0-000-2"
route = "ssn"
ssn = 6

[[title]]
translation = 0
plan = 1
nature = 4
digits = "4917"
point = "0-000-2"
backup = "0-000-3"
route = "title"
ssn = 7
new_plan = 7
new_nature = 0
remove = 4
add = "26203af"

[[title]]
translation = 255
plan = 15
nature = 127
digits = "0123456789abcdef0123456789abcdef"
point = "0-000-3"
backup = "2-017-5"
route = "title"
remove = 32
"""
ROUTES_HEAD = "  DESTINATION  STATUS      SETS TAKEN                ROUTES"
FLAGS = re.findall("^(\\w+) = (?:true|false)$", NODE.split("users")[0], re.M)
REMARK = "# This node's settings, without [serve] and the places of its links."
TICK_MS = 70
MUST_SHOW_LINK = "malformed: must be show link LINK"
MUST_SHOW = "malformed: must be show and what help lists behind it"
MUST_TEST = "malformed: test: title must be behind it"

MISTAKES = {
    "show timer": "malformed: show has no timer; the nearest is timers",
    "show set": "malformed: show has no set; the nearest is sets",
    "show setings": "malformed: show has no setings; the nearest is settings",
    "show timers l1": MUST_SHOW,
    "show sets east": MUST_SHOW,
    "show settings now": MUST_SHOW,
    "show link": MUST_SHOW_LINK,
    "show link e0 e1": MUST_SHOW_LINK,
    "tset title 0 1 4 49": "malformed: no command tset; the nearest is test",
    "test": MUST_TEST,
    "test link e0": MUST_TEST,
    "test title": "malformed: title: T must be 0 to 255",
    "test title 0 16 4 49": "malformed: title: P must be 0 to 15",
    "test title 0 1 4": "malformed: title: DIGITS must be 1 to 32 of 0 to 9 and a to f",
    "test title 0 1 4 49 2": "malformed: test title: nothing may be behind DIGITS",
}


def served(text: str, console: int, ports: list[int]) -> str:
    """Settings with a server, and a port at which each link listens."""
    left = iter(ports)
    text = re.sub(r"slc = \d+\n", lambda slc: f'{slc[0]}listen = "{HOST}:{next(left)}"\n', text)
    return f'{text}\n[serve]\ntick_ms = {TICK_MS}\nconsole = "{HOST}:{console}"\npoints = "3-8-3"\n'


class Texts(NodeTest):
    def of(self, text: str, name: str) -> Node:
        """A node with these settings, which is started."""
        console, ports = free_port(), [free_port(), free_port()]
        node = Node(self.folder / name, served(text, console, ports), console, [])
        self.addCleanup(node.kill)
        node.start()
        return node

    def test_settings(self) -> None:
        """They are the file that they were read from, and read back as the same."""
        node = self.of(NODE, "node")
        shown = [REMARK, *NODE.splitlines()]
        self.assertEqual(node.ask("show settings"), shown)
        self.assertEqual(node.ask("title remove 0 1 4 49"), ["handled"])
        self.assertEqual(node.ask("title add 1 2 3 4 0-000-3 ssn 200"), ["handled"])
        told = run("tell", "node.toml", "show", "settings", folder=node.folder)
        self.assertEqual(told.returncode, 0)
        row = '\n[[title]]\ntranslation = 1\nplan = 2\nnature = 3\ndigits = "4"\npoint = "0-000-3"\nroute = "ssn"\nssn = 200\n'
        titles = told.stdout.split("\n[[title]]\n")
        self.assertEqual([re.search('digits = "(.*)"', it)[1] for it in titles[1:]], ["4917", "4", "0123456789abcdef" * 2])
        self.assertIn(row, told.stdout)
        (node.folder / "shown.toml").write_text(told.stdout)
        checked = run("check", "shown.toml", folder=node.folder)
        self.assertEqual((checked.returncode, checked.stdout), (0, "ok\n"), checked.stderr)
        other = self.of(told.stdout, "other")
        self.assertEqual(other.ask("show settings"), told.stdout.splitlines())

    def test_each_flag(self) -> None:
        """Each key that is true or false is shown as it was read, and not as another one."""
        self.assertEqual(len(FLAGS), 6)
        for bit in range(3):
            text = NODE
            for number, key in enumerate(FLAGS, 1):
                text = re.sub(rf"^{key} = \w+$", f"{key} = {str(bool(number >> bit & 1)).lower()}", text, flags=re.M)
            self.assertEqual(self.of(text, f"node-{bit}").ask("show settings"), [REMARK, *text.splitlines()])

    def test_timers(self) -> None:
        node = self.of(NODE, "node")
        timers = dict(re.findall(r"^([lst]\w+) = (\d+)$", NODE.split("[timers]")[1].split("[[")[0], re.M))
        self.assertEqual(len(timers), 18)
        rows = [f"  {key:6}  {n:5}  {int(n) * TICK_MS / 1000:.3f}" for key, n in timers.items()]
        self.assertEqual(node.ask("show timers"), ["  TIMER   TICKS  SECONDS", *rows])
        self.assertEqual(rows[0], "  l1      2000   140.000")

    def test_timers_that_are_not_there(self) -> None:
        node = self.of(re.sub("(l4e|t2_bar|slt1|slt2|sst) = .*\n", "", NODE), "node")
        missing = [row for row in node.ask("show timers") if row.endswith(" -")]
        self.assertEqual(missing, [f"  {key:6}  -      -" for key in ("l4e", "t2_bar", "slt1", "slt2", "sst")])
        self.assertFalse({"l4e", "t2_bar", "slt1", "slt2", "sst"} & {it.split()[0] for it in node.ask("show settings") if it})

    def test_mistakes(self) -> None:
        node = self.of(NODE, "node")
        # (a console closes the connection behind a first line that is malformed)
        self.assertEqual(node.ask("show version"), ["stp 0.1.0"])
        for line, answer in MISTAKES.items():
            self.assertEqual(node.ask(line), [answer], line)


class Backups(NodeTest):
    def test_a_prohibited_backup(self) -> None:
        """A neighbour that has no way to a destination says so (TFP), and the route over its set is prohibited."""
        ports = {FAR: free_port(), MATE: free_port()}
        near = self.node(NEAR, [Link(f"e{point}", point, 0, port, True) for point, port in ports.items()])
        with open(near.folder / "node.toml", "a", encoding="utf-8") as text:
            text.write(f'[[destination]]\npoint = {ALONE}\nsets = ["to-{MATE}", "to-{FAR}"]\njoined = false\n')
        lone = Link("lone", ALONE, 0, free_port(), True)
        far = self.node(FAR, [Link("e1", NEAR, 0, ports[FAR], False), lone])
        mate = self.node(MATE, [Link("e1", NEAR, 0, ports[MATE], False)])
        for node in (near, far, mate):
            node.start()
        row = f"  {ALONE}            allowed     to-{MATE}                      to-{MATE}:allowed to-{FAR}:prohibited"
        wait_until(lambda: near.ask("show routes")[-1] == row, "the backup is prohibited")


class Links(NodeTest):
    def setUp(self) -> None:
        super().setUp()
        lone = Link("lone", ALONE, 3, free_port(), True)
        self.pair = Pair(self, beside=[lone], version=3, sst=2000)
        self.near, self.far = self.pair.near, self.pair.far

    def test_sets(self) -> None:
        near = self.near
        head = "  SET           ADJACENT  STATE        IN SERVICE  LINKS"
        lone = f"  to-{ALONE}          {ALONE}         unavailable  0           1"
        shown = [head, f"  to-{FAR}          {FAR}         available    3           3", lone]
        self.assertEqual(near.ask("show sets"), shown)
        for name, count in (("e1", 2), ("e0", 1)):
            near.ask(f"deactivate {name}")
            shown[1] = f"  to-{FAR}          {FAR}         available    {count}           3"
            self.assertEqual(near.ask("show sets"), shown)
        near.ask("deactivate e2")
        shown[1] = f"  to-{FAR}          {FAR}         unavailable  0           3"
        self.assertEqual(near.ask("show sets"), shown)

    def test_links(self) -> None:
        """The state is the log's word, since the time of its line; the rest is what `show link` says."""
        self.await_state("e1", "in service")
        rows = {row["LINK"]: row for row in self.near.table("links")}
        self.assertEqual([*rows], ["e0", "e1", "e2", "lone"])
        for name, row in rows.items():
            self.assertEqual(f"{row['STATE']} since {row['SINCE']}", self.fact(name, "state"))
            facts = [self.fact(name, word) for word in ("set", "waiting", "last sent", "last accepted")]
            self.assertEqual(facts, [row[column] for column in ("SET", "WAITING", "FSN", "BSN")])
        self.assertEqual(rows["e1"]["ALIGNMENT"], "InService")
        lone = f"  lone          to-{ALONE}          not in service yet  0.000       Down          0        -         -"
        self.assertEqual(self.near.ask("show links")[-1], lone)

    def test_routes(self) -> None:
        near = self.near
        rows = [f"  {FAR}            allowed     to-{FAR}                      to-{FAR}:allowed",
                f"  {ALONE}            prohibited  none                      to-{ALONE}:allowed"]
        self.assertEqual(near.ask("show routes"), [ROUTES_HEAD, *rows])
        told = run("tell", "node.toml", "show", "routes", folder=near.folder)
        self.assertEqual((told.returncode, told.stdout.splitlines()), (0, [ROUTES_HEAD, *rows]))

    def test_alarms(self) -> None:
        """Those that are raised, since the times of their lines in the log."""
        near = self.near
        raised = ["link lone", f"set to-{ALONE}", f"destination {ALONE}"]
        wait_until(lambda: [row["ALARM"] for row in near.table("alarms")] == raised, "the lone point alone is missed")
        head, *rows = near.ask("show alarms")
        self.assertEqual(head, "  ALARM                     SINCE")
        for row, name in zip(rows, raised, strict=True):
            self.assertEqual(row[:28], f"  {name:24}  ")
            self.assertIn(f"{row[28:]} alarm {name}", near.log())

    def fact(self, name: str, word: str) -> str:
        """What `show link` says behind a word."""
        [fact] = [line for line in self.near.ask(f"show link {name}") if line.startswith(f"{word} ")]
        return fact.removeprefix(f"{word} ")

    def await_state(self, name: str, state: str) -> None:
        """Waits until the log tells this state of a link, which is then shown, and since when."""
        pattern = rf"(\d+\.\d+) link {name} {state} after "

        def times() -> list[str]:
            return [found[1] for line in self.near.log() if (found := re.match(pattern, line))]

        wait_until(times, f"link {name} {state}")
        wait_until(lambda: self.fact(name, "state") == f"{state} since {times()[-1]}", f"{name} {state} since {times()}")

    def test_a_link(self) -> None:
        near = self.near
        self.await_state("e1", "in service")
        [row] = [row for row in near.table("links") if row["LINK"] == "e1"]
        waiting, sent, accepted = (row[column] for column in ("WAITING", "FSN", "BSN"))
        shown = near.ask("show link e1")
        self.assertEqual(shown[:4], ["link e1", f"set to-{FAR}", "code 1", f"adjacent {FAR}"])
        self.assertRegex(shown[4], r"^state in service since \d+\.\d{3}$")
        self.assertEqual(shown[5:8], [f"waiting {waiting}", f"last sent {sent}", f"last accepted {accepted}"])
        self.assertEqual(shown[8:], ["barred no", "share -", "last failure -", "retransmissions 0"])
        near.ask("deactivate e1")
        self.await_state("e1", "deactivated")
        self.assertRegex(self.fact("e1", "last failure"), r"^operator at \d+\.\d{3}$")
        lone = ["link lone", f"set to-{ALONE}", "code 3", f"adjacent {ALONE}", "state not in service yet since 0.000"]
        lone += ["waiting 0", "last sent -", "last accepted -", "barred no", "share -"]
        lone += ["last failure -", "retransmissions 0"]
        self.assertEqual(near.ask("show link lone"), lone)

    def test_no_link(self) -> None:
        """The nearest name is that of the fewest edits, and of several the first."""
        near = self.near
        self.assertEqual(near.ask("show link e9"), ["refused 22 NoSuchName", "the nearest link is e0"])
        self.assertEqual(near.ask("show link lnoe"), ["refused 22 NoSuchName", "the nearest link is lone"])
        self.assertEqual(near.ask("show link elephant"), ["refused 22 NoSuchName"])
        self.assertEqual(near.ask(f"show link {'e' * 33}"), ["refused 22 NoSuchName"])
        told = run("tell", "node.toml", "show", "link", "e9", folder=near.folder)
        self.assertEqual((told.returncode, told.stdout), (REFUSED, "refused 22 NoSuchName\nthe nearest link is e0\n"))
        self.assertEqual(run("tell", "node.toml", "show", "link", "e1", folder=near.folder).returncode, 0)

    def test_titles(self) -> None:
        """Where each row leads, and each cause for which a title is refused; nothing changes by it."""
        near = self.near
        rows = {
            f"49 {FAR} ssn 6": [f"leads to {FAR}"],
            f"4930 {ALONE} ssn 6 backup {FAR}": [f"leads to {FAR}, the backup: no link leads to {ALONE}"],
            f"4931 {ALONE} ssn 6": ["refused 4 NoRoute"],
            f"4932 {UNKNOWN_POINT} title -": ["refused 3 UnknownDestination"],
            f"4933 {NEAR} ssn 8": [f"leads to {NEAR}"],
            f"4934 {NEAR} ssn 9": ["refused 12 Unequipped"],
            f"4935 {NEAR} title -": [f"leads to {NEAR}"],
            f"4936 {FAR} title 6 backup {ALONE}": [f"leads to {FAR}"],
            f"4937 {ALONE} title 6 backup {UNKNOWN_POINT}": ["refused 4 NoRoute"],
            f"4938 {FAR} ssn 6 backup {NEAR} changed 1 4 2 31": [f"leads to {FAR}"],
        }
        for row in rows:
            self.assertEqual(near.ask(f"title add 0 1 4 {row}"), ["handled"])
        before = [near.ask(f"show {text}") for text in ("titles", "links", "counters", "notices")]
        for row, answer in rows.items():
            self.assertEqual(near.ask(f"test title 0 1 4 {row.split()[0]}7"), [f"title 0 1 4 {row}", *answer])
        self.assertEqual(near.ask("test title 0 1 4 4"), ["refused 11 NoDigits"])
        self.assertEqual(near.ask("test title 1 1 4 49"), ["refused 10 NoNature"])
        told = run("tell", "node.toml", "test", "title", "1", "1", "4", "49", folder=near.folder)
        self.assertEqual((told.returncode, told.stdout), (REFUSED, "refused 10 NoNature\n"))
        told = run("tell", "node.toml", "test", "title", "0", "1", "4", "490", folder=near.folder)
        self.assertEqual((told.returncode, told.stdout), (0, f"title 0 1 4 49 {FAR} ssn 6\nleads to {FAR}\n"))
        self.assertEqual([near.ask(f"show {text}") for text in ("titles", "links", "counters", "notices")], before)

    def test_prohibited_subsystems(self) -> None:
        """The far point says that its subsystem 8 is prohibited (SSP, Q.713 §5): rows to that don't lead there."""
        near = self.near
        rows = {
            f"49 {FAR} ssn 8": "refused 25 SubsystemProhibited",
            f"50 {FAR} ssn 8 backup {NEAR}": f"leads to {NEAR}, the backup: the subsystem is prohibited at {FAR}",
            f"51 {FAR} ssn 8 backup {ALONE}": "refused 25 SubsystemProhibited",
            f"52 {ALONE} ssn 8 backup {FAR}": "refused 25 SubsystemProhibited",
            f"53 {NEAR} ssn 8 backup {FAR}": f"leads to {NEAR}",
            f"54 {FAR} ssn 7": f"leads to {FAR}",
            f"55 {FAR} title 8": f"leads to {FAR}",
        }
        for row in rows:
            self.assertEqual(near.ask(f"title add 0 1 4 {row}"), ["handled"])
        [queued] = self.far.ask("submit 83018000000900030507024201024201050208020000")
        self.assertRegex(queued, "^queued e[0-2]$")
        wait_until(lambda: near.ask("show subsystems") == [f"subsystem {FAR} 8 prohibited"], "the subsystem is prohibited")
        for row, answer in rows.items():
            self.assertEqual(near.ask(f"test title 0 1 4 {row.split()[0]}"), [f"title 0 1 4 {row}", answer])
