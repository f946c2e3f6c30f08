"""What the program says of settings files that are as large as they may be, and of larger ones."""

from harness import ROOT, NodeTest, run

SETTINGS = (ROOT / "examples" / "built_in.toml").read_bytes()

# Octets of a settings file, at most.
MOST = 16_000_000


class LargeSettings(NodeTest):
    def write(self, octets: int) -> None:
        """Writes a file of so many octets: settings behind a remark."""
        remark = b"#" * (octets - len(SETTINGS) - 1) + b"\n"
        (self.folder / "node.toml").write_bytes(remark + SETTINGS)

    def test_the_largest_file(self) -> None:
        self.write(MOST)
        ended = run("check", "node.toml", folder=self.folder)
        self.assertEqual((ended.returncode, ended.stdout, ended.stderr), (0, "ok\n", ""))

    def test_a_file_with_one_octet_more(self) -> None:
        self.write(MOST + 1)
        ended = run("check", "node.toml", folder=self.folder)
        self.assertEqual((ended.returncode, ended.stdout), (4, ""))
        self.assertEqual(ended.stderr, "node.toml: it is larger than 16 MB, which no settings file is\n")
