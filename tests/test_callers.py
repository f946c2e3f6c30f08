"""Two nodes with consoles, and the callers of these."""

import signal
import socket

from harness import Link, NodeTest, free_port
from traffic import FAR, NEAR, Pair, submit_to

MESSAGES = 64
MOST_CALLERS = 16
KEPT_NOTICES = 64
LOST = 100
LINE_OCTETS = 8300
QUESTIONS = 6000
HELP_LINES = 35
ROUTES = ["  DESTINATION  STATUS      SETS TAKEN                ROUTES",
          f"  {FAR}            allowed     to-{FAR}                      to-{FAR}:allowed"]
FLAGS = ["flag lost_any 0", "flag late_any 0"]

# What a web page may have a browser write to any port, without the body.
POST = "POST / HTTP/1.1\r\nHost: localhost\r\n\r\n"

# Points and how they are written in three parts, of 3, 8 and 3 bits (Q.708): 4237 is 2 * 2048 + 17 * 8 + 5.
IN_PARTS = {0: "0-000-0", 9: "0-001-1", 4237: "2-017-5", 16383: "7-255-7"}

# Lines that add no row: a point is in the wrong format, or no point is read there.
NO_POINTS = {
    "title add 0 1 4 4917 8-000-0 ssn 6": "title add: POINT must be a point code",
    "title add 0 1 4 4917 2-256-5 ssn 6": "title add: POINT must be a point code",
    "title add 0 1 4 4917 2-017-8 ssn 6": "title add: POINT must be a point code",
    "title add 0 1 4 4917 2-17-5 ssn 6": "title add: POINT must be a point code",
    "title add 2-017-5 1 4 4917 9 ssn 6": "title: T must be 0 to 255",
    "title add 0 1 4 4917": "title add: POINT must be a point code",
    "title remove 0 1 4 4917 2-017-5": "title remove: nothing may be behind DIGITS",
    "route 2-017-5": "no command route; help lists them",
}

# Lines that a caller may not write, and what is wrong with them.
OF_SCRIPTS = "for scripts alone: here links and clock are real"
NO_COMMAND = "no such command; help lists them"
OF_SHOW = "must be show and what help lists behind it"
OF_SUBMIT = "must be submit HEX, of two hexadecimal digits for each octet"
OF_ACTIVATE = "must be activate LINK, or activate LINK emergency"
OF_CAPTURE = "must be capture start or capture stop, for all links; or with LINK behind it, for that one"
BEHIND = "title add: behind SSN may be backup POINT, then changed PLAN NATURE REMOVE ADD"
ROW = "title add 0 1 4 4917 9 ssn 6"
MISTAKES = {
    "shw links": "no command shw; the nearest is show",
    "sohw links": "no command sohw; the nearest is show",
    "Show links": "no command Show; the nearest is show",
    "deactivaet e0": "no command deactivaet; the nearest is deactivate",
    "reboot": "no command reboot; help lists them",
    "ok": "no command ok; help lists them",
    "x" * 32: f"no command {'x' * 32}; help lists them",
    "x" * 33: NO_COMMAND,
    "h\u00e9lp": NO_COMMAND,
    "show\tlinks": NO_COMMAND,
    "up e0": OF_SCRIPTS,
    "down": OF_SCRIPTS,
    "frame e0 00": OF_SCRIPTS,
    "tick 1": OF_SCRIPTS,
    "take e0": OF_SCRIPTS,
    "wants e0": OF_SCRIPTS,
    "show lnks": "show has no lnks; the nearest is links",
    "show everything": "show has no everything; help lists them",
    f"show {'x' * 33}": "show has no such text; help lists them",
    "show": OF_SHOW,
    "show links e0": OF_SHOW,
    "submit": OF_SUBMIT,
    "submit 85 02": OF_SUBMIT,
    "submit 850g": "submit: a character that is no hexadecimal digit",
    "submit 850": "submit: an odd number of digits",
    f"submit {'00' * 4097}": "submit: more than 4096 octets",
    "activate": OF_ACTIVATE,
    "activate e0 quickly": OF_ACTIVATE,
    "activate e0 emergency now": OF_ACTIVATE,
    "deactivate": "must be deactivate LINK",
    "deactivate e0 e1": "must be deactivate LINK",
    "release": "must be release LINK",
    "users now": "must be users",
    "watch e0": "must be watch, or watch frames",
    "capture": OF_CAPTURE,
    "capture e0": OF_CAPTURE,
    "help me": "must be help",
    "quit now": "must be quit",
    "stop now": "must be stop",
    "title": "title: add, set or remove must be behind it",
    "title put 0 1 4 4917 9 ssn 6": "title: add, set or remove must be behind it",
    "title add": "title: T must be 0 to 255",
    "title add 256 1 4 4917 9 ssn 6": "title: T must be 0 to 255",
    "title add 0 16 4 4917 9 ssn 6": "title: P must be 0 to 15",
    "title remove 0 1 128 4917": "title: N must be 0 to 127",
    "title remove 0 1 4 491g": "title: DIGITS must be 1 to 32 of 0 to 9 and a to f",
    f"title remove 0 1 4 {'1' * 33}": "title: DIGITS must be 1 to 32 of 0 to 9 and a to f",
    "title remove 0 1 4 4917 9": "title remove: nothing may be behind DIGITS",
    "title add 0 1 4 4917 16384 ssn 6": "title add: POINT must be a point code",
    "title add 0 1 4 4917 9 gt 6": "title add: ROUTE must be title or ssn",
    "title add 0 1 4 4917 9 ssn -": "title add: SSN must be 1 to 255, or - if ROUTE is title",
    "title add 0 1 4 4917 9 title 0": "title add: SSN must be 1 to 255, or - if ROUTE is title",
    f"{ROW} backup": "title add: a point code must be behind backup",
    f"{ROW} spare 10": BEHIND,
    f"{ROW} backup 10 changed 1 4 0 - -": BEHIND,
    f"{ROW} changed 16 4 0 -": "title add: PLAN must be 0 to 15, or -",
    f"{ROW} changed 1 128 0 -": "title add: NATURE must be 0 to 127, or -",
    f"{ROW} changed - - 33 -": "title add: REMOVE must be 0 to 32",
    f"{ROW} backup 10 changed 1 4 0 x": "title add: ADD must be 1 to 32 of 0 to 9 and a to f, or -",
    "title set": "title: T must be 0 to 255",
    "title set 0 1 4 491g 9 ssn 6": "title: DIGITS must be 1 to 32 of 0 to 9 and a to f",
    "title set 0 1 4 4917": "title set: POINT must be a point code",
    "title set 0 1 4 4917 9 gt 6": "title set: ROUTE must be title or ssn",
    "title set 0 1 4 4917 9 ssn 6 spare 10": BEHIND.replace("add", "set", 1),
    "title set 0 1 4 4917 9 ssn 6 changed - - 33 -": "title set: REMOVE must be 0 to 32",
}


class Callers(NodeTest):
    def setUp(self) -> None:
        super().setUp()
        self.pair = Pair(self)
        self.near, self.far = self.pair.near, self.pair.far

    def test_what_there_is(self) -> None:
        head, *shown = self.near.ask("show links")
        self.assertEqual(head.split(), ["LINK", "SET", "STATE", "SINCE", "ALIGNMENT", "WAITING", "FSN", "BSN"])
        self.assertEqual(len(shown), 3)
        for number, line in enumerate(shown):
            row = rf"^  e{number} {{12}}to-{FAR} {{10}}[a-z ]{{18}}  [\d.]+ +InService {{5}}0 {{8}}(-|\d+) +\d+$"
            self.assertRegex(line, row)
        self.assertEqual(self.near.ask("show routes"), ROUTES)
        self.assertEqual(len(self.near.ask("show counters")), 3 * 55 + 3)
        self.assertEqual(len(self.near.ask("help")), HELP_LINES)
        self.assertEqual(self.near.ask("# nothing\n"), [])
        caller = self.near.call()
        self.assertEqual(caller.ask("show routes"), ROUTES)
        caller.write("up e0\n")
        self.assertEqual(caller.read_line(), f"malformed: {OF_SCRIPTS}", "the network isn't a caller's")
        caller.write("title add 0 1 4 4917 0-000-2 ssn 6\n")
        self.assertEqual(caller.read_line(), "malformed: title add: POINT must be a point code", "points are numbers")
        self.assertEqual(caller.ask("show version"), ["stp 0.1.0"])
        self.assertEqual(caller.ask("?"), self.near.ask("help"))

    def test_mistakes(self) -> None:
        """Each is answered by what is wrong, and nothing is done."""
        caller = self.near.call()
        shown = {line: caller.ask(line) for line in ("show routes", "show titles", "show capture")}
        for line, wrong in MISTAKES.items():
            caller.write(f"{line}\n")
            self.assertEqual(caller.read_line(), f"malformed: {wrong}", line)
        for line, lines in shown.items():
            self.assertEqual(caller.ask(line), lines)
        self.assertEqual([state for state, _ in self.near.links().values()], ["InService"] * 3)

    def test_blanks(self) -> None:
        """They don't matter before and behind a line, nor how many are between words. A line of blanks is empty."""
        caller = self.near.call()
        for line in ("show routes", "  show routes", "show routes  ", "show    routes", "   show   routes  \r"):
            self.assertEqual(caller.ask(line), ROUTES, line)
        for line in ("   ", "  # nothing", "  \r"):
            self.assertEqual(caller.ask(line), [], line)
        self.assertEqual(caller.ask(" title  add 0 1 4  4917 9 ssn   6 "), ["handled"])
        self.assertEqual(caller.ask("show titles"), ["title 0 1 4 4917 9 ssn 6"])

    def test_quit(self) -> None:
        """All that was asked for before is answered, and nothing behind it is done."""
        caller = self.near.call()
        caller.write("users\nwatch\nwatch frames\n" + "show routes\n" * QUESTIONS + "quit\ndeactivate e0\nstop\n")
        self.assertEqual(caller.read_lines(3), ["handled"] * 3)
        rest = [line for line in caller.read_to_end() if not line.startswith(("local ", "e0 ", "e1 ", "e2 "))]
        self.assertEqual(rest, ROUTES * QUESTIONS + ["handled"])
        self.assertEqual([state for state, _ in self.near.links().values()], ["InService"] * 3)

    def test_messages_are_told(self) -> None:
        listener, submitter = self.near.call(), self.far.call()
        self.assertEqual(listener.ask("users"), ["handled"])
        self.assertEqual(submitter.ask("submit 8501800010010010"), ["queued e1"])
        self.assertEqual(listener.read_line(), "local e1 8501800010010010")

    def test_notices_and_frames_are_told(self) -> None:
        watcher, frames = self.near.call(), self.near.call()
        self.assertEqual(watcher.ask("watch"), ["handled"])
        self.assertEqual(frames.ask("watch frames"), ["handled"])
        self.assertEqual(self.near.ask("deactivate e1"), ["handled"])
        self.assertEqual(watcher.read_line(), "failed e1 operator")
        self.assertRegex(frames.read_line(), r"^e[02] out fsn \d+ bsn \d+ opc 1 dpc 2 sls 1 si 0 31[0-9a-f]{6}$")
        self.assertEqual(self.near.ask("activate e1"), ["handled"])
        self.pair.await_service()
        self.pair.exchange(MESSAGES)

    def test_one_too_many(self) -> None:
        """It takes the place of the one that was idle longest, but for those that asked for news."""
        watcher, idle = self.near.call(), self.near.call()
        self.assertEqual(watcher.ask("watch"), ["handled"])
        others = [*(it for it in self.near.callers if it not in (watcher, idle)),
                  *(self.near.call() for _ in range(MOST_CALLERS - len(self.near.callers)))]
        for caller in others:
            self.assertEqual(caller.ask("show flags"), FLAGS)
        self.assertEqual(self.near.call().ask("show routes"), ROUTES)
        self.assertTrue(idle.sees_end())
        for caller in (watcher, *others):
            self.assertEqual(caller.ask("show routes"), ROUTES)

    def test_the_longest_line(self) -> None:
        first, second = self.near.call(), self.near.call()
        self.assertEqual(first.ask("show routes"), ROUTES)
        first.write("x" * LINE_OCTETS + "\n")
        self.assertEqual(first.read_line(), f"malformed: {NO_COMMAND}")
        second.write("x" * (LINE_OCTETS + 1))
        self.assertTrue(second.sees_end())
        self.assertEqual(first.ask("show routes"), ROUTES)

    def test_a_web_page_that_posts(self) -> None:
        """The first line of a request is none of a caller's, so the connection is closed, and the lines behind it do
        nothing, also with empty lines and remarks in front. A caller may write a malformed line later on."""
        caller = self.near.call()
        for front in ("", "\n", "\r\n# nothing\n\n"):
            page = self.near.call()
            page.write(front + POST + "deactivate e1\nstop\n")
            page.sees_end()
        self.near.await_log("caller .* gone$", 3)
        self.assertEqual(caller.ask("show routes"), ROUTES)
        caller.write(POST.splitlines(keepends=True)[0])
        self.assertEqual(caller.read_line(), "malformed: no command POST; help lists them")
        self.assertEqual(caller.ask("show routes"), ROUTES)
        self.assertEqual([state for state, _ in self.near.links().values()], ["InService"] * 3)
        self.assertEqual(self.near.logged("notice"), 0)

    def test_a_caller_that_never_reads(self) -> None:
        # What its sockets hold is less than the answers, which are some 7 MB.
        deaf = self.near.call(receive_octets=4096)
        deaf.write("help\n" * QUESTIONS)
        self.assertEqual(self.near.ask("show routes"), ROUTES)
        self.pair.exchange(MESSAGES)
        answers = deaf.read_lines(HELP_LINES * QUESTIONS)
        self.assertEqual(answers, answers[:HELP_LINES] * QUESTIONS)

    def test_the_end_of_what_a_caller_writes(self) -> None:
        caller = self.near.call()
        caller.write("users\r\nshow routes\r\nshow ro")
        caller.socket.shutdown(socket.SHUT_WR)
        self.assertEqual(caller.read_lines(3), ["handled", *ROUTES])
        self.assertTrue(caller.sees_end(), "the beginning of a line does nothing")

    def test_stop(self) -> None:
        self.near.stop()
        for number in range(3):
            self.far.await_log(f"notice failed e{number} association$")
        self.assertEqual([state for state, _ in self.far.links().values()], ["Down"] * 3)


class Points(NodeTest):
    def setUp(self) -> None:
        """A node that shows points in three parts, with a set to each of these."""
        super().setUp()
        links = [Link(f"e{number}", point, 0, free_port(), True) for number, point in enumerate(IN_PARTS)]
        self.near = self.node(1, links, points="3-8-3")
        self.near.start()

    def test_points_are_shown(self) -> None:
        rows = [(row["DESTINATION"], row["STATUS"], row["SETS TAKEN"]) for row in self.near.table("routes")]
        self.assertEqual(rows, [(it, "prohibited", "none") for it in IN_PARTS.values()])

    def test_points_are_read(self) -> None:
        """A point is read in either form, and a row leads there by title or by subsystem."""
        for point, shown in IN_PARTS.items():
            for written in (shown, str(point)):
                for route in ("ssn 6", "title -"):
                    self.assertEqual(self.near.ask(f"title add 0 1 4 4917 {written} {route}"), ["handled"])
                    self.assertEqual(self.near.ask("show titles"), [f"title 0 1 4 4917 {shown} {route}"])
                    self.assertEqual(self.near.ask("title remove 0 1 4 4917"), ["handled"])

    def test_what_is_no_point(self) -> None:
        caller = self.near.call()
        self.assertEqual(caller.ask("show titles"), [])
        for line, wrong in NO_POINTS.items():
            caller.write(f"{line}\n")
            self.assertEqual(caller.read_line(), f"malformed: {wrong}", line)
        self.assertEqual(self.near.ask("show titles"), [])


class Notices(NodeTest):
    def test_notices_that_were_missed(self) -> None:
        """T1 ends a changeover without a number. It makes a notice, and one for each message that may be lost: more at
        once than a node keeps. The flag is raised for each of these messages, and for the number that never came."""
        pair = Pair(self, links=1, t1=4)
        watcher = pair.near.call()
        self.assertEqual(watcher.ask("watch"), ["handled"])
        self.assertEqual(pair.near.ask("show flags"), ["flag lost_any 0", "flag late_any 0"])
        pair.far.signal(signal.SIGSTOP)
        self.assertEqual(submit_to(pair.near, NEAR, FAR, LOST), {"queued e0": LOST})
        pair.far.kill()
        self.assertEqual(watcher.read_line(), "failed e0 association")
        self.assertEqual(watcher.read_line(), f"missed {LOST + 1 - KEPT_NOTICES}")
        for line in watcher.read_lines(KEPT_NOTICES):
            self.assertRegex(line, rf"^lost 14 LostUnconfirmed {FAR} \d+$")
        self.assertEqual(pair.near.ask("show flags"), [f"flag lost_any {LOST + 1}", "flag late_any 0"])
        pair.near.await_log(f"missed {LOST + 1 - KEPT_NOTICES}$")
        pair.near.await_log(f"flag lost_any {LOST + 1}$")
