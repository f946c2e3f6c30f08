"""What the program says of its words, its files and its scripts, and the status that it ends with."""

from harness import ROOT, Link, NodeTest, free_port, links_between, run, settings
from traffic import FAR, NEAR

EXAMPLES = ROOT / "examples"

# The first of its runs is one of a link.
TRANSCRIPT = EXAMPLES / "lab.transcript"

# A change of the settings, the fault that it makes, and what is wrong there.
FAULTS = (
    ("version = 2", "version =", "fault 1", ""),
    ("tick_ms = 50", "tick_ms = 5", "fault 4 serve.tick_ms", "serve.tick_ms is 5, must be 10 to 10000"),
    ("slc = 0", "slc = 16", "fault 4 link[0].slc", 'link[0] "e0": slc is 16, must be 0 to 15'),
    ("listen =", "remote =", "fault 2 serve.udp", "serve.udp is missing, and a link has remote"),
)

# Scripts whose octets no transcript holds, and what is printed for them. Only a line feed ends a line.
OCTETS = (
    ("\0\n", "fault 1\n"),
    ("\r\n", "fault 1\n"),
    ("\xff e0\n", "fault 1\n"),
    ("activate\xff\n", "fault 1\n"),
    ("frame e0 00\r\n", "fault 1\n"),
    ("activate \0\n", "refused 22 NoSuchName\n"),
    ("activate \xff\n", "refused 22 NoSuchName\n"),
    ("up e0\r\n", "refused 22 NoSuchName\n"),
    ("\n\n#\n# up e0\n#\xff\0\r\n", ""),
    ("up e9\n# \xff\nup\nup e0\n", "refused 22 NoSuchName\nfault 3\n"),
)

# The start of a line, what follows it and how often, and what is printed for the line and for `up e0` after it. Nothing
# is done after a line that is too long.
LONG_LINES = (
    ("# ", "x", 8298, "handled\n"),
    ("# ", "x", 8299, "fault 1\n"),
    ("#", "x", 100_000, "fault 1\n"),
    ("take ", "x", 8295, "refused 22 NoSuchName\nhandled\n"),
    ("take ", "x", 8296, "fault 1\n"),
    ("frame e0 ", "a5", 4096, "ignored\nhandled\n"),
    ("frame e0 ", "a5", 4097, "fault 1\n"),
    ("submit ", "A5", 4096, "refused 13 TooLong\nhandled\n"),
    ("submit ", "A5", 4097, "fault 1\n"),
    ("submit 852c410050", "a5", 268, "refused 4 NoRoute\nhandled\n"),
    ("submit 852c410050", "a5", 269, "refused 13 TooLong\nhandled\n"),
)

# Arguments that aren't the program's.
OTHER_WORDS = (
    [],
    ["serve"],
    ["serve", "-x"],
    ["serve", ""],
    ["lab", "node.toml"],
    ["nonsense"],
    ["help", "me"],
    ["--help", ""],
    ["--version", "x"],
    ["-h"],
)

# What `stp help` lists, in this order.
COMMANDS = (
    "run",
    "run FILE",
    "check FILE",
    "lab NEAR FAR",
    "lab FILE FILE ..",
    "lab-udp NEAR FAR",
    "serve FILE",
    "tell FILE ..",
    "help",
    "version",
)


class Words(NodeTest):
    def test_help(self) -> None:
        for word in ("help", "--help"):
            with self.subTest(word):
                ended = run(word, folder=self.folder)
                self.assertEqual((ended.returncode, ended.stderr), (0, ""))
                lines = ended.stdout.splitlines()
                shown = [line.split("  ")[0] for line in lines[:len(COMMANDS)]]
                self.assertEqual(shown, [f"stp {command}" for command in COMMANDS])
                self.assertIn("docs/MANUAL.md", ended.stdout)
                self.assertIn("README.md", ended.stdout)

    def test_version(self) -> None:
        for word in ("version", "--version"):
            with self.subTest(word):
                ended = run(word, folder=self.folder)
                self.assertEqual((ended.returncode, ended.stdout, ended.stderr), (0, "stp 0.1.0\n", ""))

    def test_other_words(self) -> None:
        for words in OTHER_WORDS:
            with self.subTest(words):
                ended = run(*words, folder=self.folder)
                self.assertEqual((ended.returncode, ended.stdout), (1, "usage\n"))
                self.assertIn("stp serve FILE", ended.stderr)

    def test_files_that_cannot_be_read(self) -> None:
        for words in (
            ["serve", "absent"],
            ["check", "absent"],
            ["lab", "absent", "absent"],
            ["lab", "absent", "absent", "absent"],
            ["run", "absent"],
        ):
            with self.subTest(words):
                ended = run(*words, folder=self.folder)
                self.assertEqual((ended.returncode, ended.stdout), (4, ""))
                self.assertEqual(ended.stderr, "absent: there is no such file\n")

    def test_faults_of_settings(self) -> None:
        text = settings(NEAR, links_between([free_port()], FAR, True), console=free_port())
        for old, new, fault, sentence in FAULTS:
            with self.subTest(new):
                self.assertIn(old, text)
                (self.folder / "node.toml").write_text(text.replace(old, new, 1))
                for word in ("serve", "check"):
                    ended = run(word, "node.toml", folder=self.folder)
                    self.assertEqual((ended.returncode, ended.stdout), (2, fault + "\n"))
                    self.assertIn("node.toml: " + sentence, ended.stderr)

    def test_a_script(self) -> None:
        for script, status, printed in (("show links\n", 0, ""), ("show links\ntik 3\n", 3, "fault 2\n")):
            ended = run("run", folder=self.folder, text=script)
            shown = "link e0 Down waiting 0 fsn 16777215 bsn 16777215\n"
            self.assertEqual((ended.returncode, ended.stdout), (status, shown + printed))

    def test_a_script_on_the_settings_of_a_file(self) -> None:
        """A message is forwarded, and the last line is malformed."""
        (self.folder / "two_sets.toml").write_text((EXAMPLES / "two_sets.toml").read_text())
        script = (EXAMPLES / "forward.script").read_text()
        ended = run("run", "two_sets.toml", folder=self.folder, text=script + "tik 3\n")
        self.assertEqual(ended.returncode, 3)
        forwarded = "frame w0 01000b010000001800ffffff0000000100852c810050aabb"
        self.assertEqual(ended.stdout.splitlines()[-3:], ["queued w0", forwarded, "fault 17"])

    def expect(self, script: str, printed: str) -> None:
        ended = run("run", folder=self.folder, text=script, encoding="latin-1")
        self.assertEqual((ended.returncode, ended.stdout), (3 if "fault" in printed else 0, printed))

    def test_octets_that_are_no_text(self) -> None:
        for script, printed in OCTETS:
            with self.subTest(script):
                self.expect(script, printed)

    def test_long_lines(self) -> None:
        for start, text, count, printed in LONG_LINES:
            with self.subTest(start=start, count=count):
                self.expect(start + text * count + "\nup e0\n", printed)

    def test_hostile_words(self) -> None:
        for name, why in (("a\nb", "there is no such file"), ("a" * 100_000, "a read of it failed")):
            ended = run("check", name, folder=self.folder)
            self.assertEqual((ended.returncode, ended.stdout, ended.stderr), (4, "", f"{name}: {why}\n"))
        self.assertEqual(run("run" * 40_000, folder=self.folder).returncode, 1)

    def test_a_lab_over_a_connection(self) -> None:
        """A link opens, aligns and carries a message, as in the transcript, whose links are streams in memory."""
        for name, own, other in (("near.toml", NEAR, FAR), ("far.toml", FAR, NEAR)):
            (self.folder / name).write_text(settings(own, [Link("e0", other, 0, 1, True)]))
        lines = TRANSCRIPT.read_text().split("\n\n")[1].splitlines()[2:]
        script = "".join(line[2:] + "\n" for line in lines if line.startswith("> "))
        ended = run("lab", "near.toml", "far.toml", folder=self.folder, text=script)
        self.assertEqual((ended.returncode, ended.stderr), (0, ""))
        self.assertEqual(ended.stdout.splitlines(), [line for line in lines if not line.startswith("> ")])
        self.assertEqual(len(ended.stdout.splitlines()), 17)
