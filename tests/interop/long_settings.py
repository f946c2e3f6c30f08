"""How long `stp check` takes for settings files with as many rows as there may be, in versions 3 and 4: well formed, and
with a fault in each of the last hundred rows.

    python3 tests/interop/long_settings.py [FILES]

With FILES, a part of their names, it takes those alone. Each file is made in a temporary folder and checked three times;
the seconds of each are printed behind the name, the size in octets and the first line that the program prints. It needs
the built program (crates/stp/out/stp, or another one by the environment variable STP). Nothing is compared.
"""

import os
import pathlib
import subprocess
import sys
import tempfile
import time

ROOT = pathlib.Path(__file__).resolve().parent.parent.parent
STP = os.path.abspath(os.environ.get("STP") or ROOT / "crates/stp/out/stp")

VERSIONS = (3, 4)
TITLES, DESTINATIONS = 65_535, 4_096
TIMES, FAULTS = 3, 100

# Point 2 is adjacent; the destinations behind it are from point 3 on.
HEAD = """version = {version}
own = 1
network = 2
window = 128
pool = 1000
users = [5]
subsystems = [8]
"""
TIMERS = "[timers]\n" + "".join(f"{name} = 10\n" for name in "l1 l2 l3 l4 l6 l7 t1 t2 t3 t4 t6 t8 t10".split())
SET_AND_LINK = '[[set]]\nname = "east"\nadjacent = 2\n[[link]]\nname = "e0"\nset = "east"\nslc = 0\n'


def settings(version: int, rows: str, behind: str) -> str:
    """Settings with rows in brackets, and others with headers behind all else."""
    return HEAD.format(version=version) + rows + TIMERS + SET_AND_LINK + behind


def title(number: int, plan: int) -> dict[str, str]:
    return {"translation": "0", "plan": str(plan), "nature": "4", "digits": f'"{number:x}"', "point": "2", "route": '"title"'}


def destination(number: int, joined: str) -> dict[str, str]:
    return {"point": str(2 + number), "sets": '["east"]', "joined": joined}


def bracketed(array: str, rows: list[dict[str, str]]) -> str:
    entries = "".join("  { " + ", ".join(f"{key} = {value}" for key, value in row.items()) + " },\n" for row in rows)
    return f"{array} = [\n{entries}]\n"


def headed(array: str, rows: list[dict[str, str]]) -> str:
    return "".join(f"[[{array}]]\n" + "".join(f"{key} = {value}\n" for key, value in row.items()) for row in rows)


def files(version: int):
    """The name and the text of each file of a version."""
    few = [destination(0, "false")]
    for kind, faults in (("well formed", 0), (f"{FAULTS} faults", FAULTS)):
        titles = [title(i, 1 if i < TITLES - faults else 16) for i in range(TITLES)]
        many = [destination(i, "false" if i < DESTINATIONS - faults else "true") for i in range(DESTINATIONS)]
        for form, written in (("braces", bracketed), ("headers", headed)):
            behind = form == "headers"
            for array, rows, others in (("title", titles, bracketed("destination", few)), ("destination", many, "")):
                text = written(array, rows)
                yield f"{len(rows)} {array}s in {form}, {kind}", settings(version, others + text * (not behind), text * behind)


def seconds(folder: str) -> tuple[float, str]:
    start = time.monotonic()
    ended = subprocess.run([STP, "check", "node.toml"], cwd=folder, capture_output=True, text=True)
    return time.monotonic() - start, ended.stdout.split("\n")[0]


def main() -> None:
    wanted = sys.argv[1] if len(sys.argv) > 1 else ""
    with tempfile.TemporaryDirectory() as folder:
        for version in VERSIONS:
            for name, text in files(version):
                if wanted not in name:
                    continue
                (pathlib.Path(folder) / "node.toml").write_text(text)
                runs = [seconds(folder) for _ in range(TIMES)]
                times = " ".join(f"{each:.2f}" for each, _ in runs)
                print(f"version {version}, {name}, {len(text)} octets, {runs[0][1]}: {times}", flush=True)


if __name__ == "__main__":
    main()
