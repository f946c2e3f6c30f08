"""Settings files that might be slow to check, and how long `stp check` takes for them.

    python3 docs/hurting_files.py most 1 > examples/settings_files/most_destinations.toml
    python3 docs/hurting_files.py most 2 > examples/settings_files/most_destinations_2.toml
    python3 docs/hurting_files.py measure crates/stp/out/stp

`most` prints a settings file with the most destinations that its version allows. `measure` makes each file in
three sizes, each twice the one before, has the program check it, and prints what the program printed, and
the least time of three. The files are made in a temporary folder.
"""
import subprocess
import sys
import tempfile
import time
from pathlib import Path

NUMBERS = "own = 1\nnetwork = 2\nwindow = 128\npool = 1000\nsubsystems = [8]\n"
USERS = "users = [5]\n"
TIMERS = "[timers]\nl1 = 10\nl2 = 10\nl3 = 10\nl4 = 3\nl6 = 20\nl7 = 5\nt1 = 4\nt2 = 6\nt3 = 4\nt4 = 4\nt6 = 4\nt8 = 3\nt10 = 8\n"
LINK = '[[link]]\nname = "e0"\nset = "east"\nslc = 0\n'
SETS = ["east", "west", "north", "south", "up", "down", "left", "right"]


def link_sets(count):
    return "".join(f'[[set]]\nname = "{name}"\nadjacent = {2 + i}\n' for i, name in enumerate(SETS[:count]))


def destinations(count, sets):
    # each set comes first for some destination, as its adjacent point needs it to
    lists = [", ".join(f'"{name}"' for name in SETS[i:sets] + SETS[:i]) for i in range(sets)]
    entries = "".join(f"{{point = {2 + i}, sets = [{lists[i % sets]}]}},\n" for i in range(count))
    return f"destination = [\n{entries}]\n"


def settings(sets=1, count=2, behind=1, more="", users=USERS, version=1):
    return f"version = {version}\n" + NUMBERS + users + more + destinations(count, behind) + TIMERS + link_sets(sets) + LINK


def nested(opening, closing, count):
    return settings(more="deep = " + opening * count + "1" + closing * count + "\n")


FILES = [
    ("lists, nested and closed again", lambda n: nested("[", "]", n), 524_288),
    ("lists, never closed", lambda n: nested("[", "", n), 1_048_576),
    ("tables, nested", lambda n: nested("{a=", "}", n), 262_144),
    ("one key with many parts", lambda n: settings(more=".".join(["a"] * n) + " = 1\n"), 524_288),
    ("one key, repeated", lambda n: settings(more="own = 1\n" * n), 1_000_000),
    ("unknown keys", lambda n: settings(more="".join(f"k{i} = 0\n" for i in range(n))), 100_000),
    ("one user, repeated", lambda n: settings(users="users = [" + "5, " * n + "]\n"), 1_000_000),
    ("destinations with one set each", lambda n: settings(count=n, version=2), 2_048),
    ("destinations with 8 sets each", lambda n: settings(sets=8, count=n, behind=8, version=2), 2_048),
]


def checked(program, text):
    """What the program prints for this text, and the least seconds of three."""
    with tempfile.TemporaryDirectory() as folder:
        file = Path(folder) / "node.toml"
        file.write_text(text)
        times = []
        for _ in range(3):
            start = time.perf_counter()
            done = subprocess.run([program, "check", str(file)], capture_output=True, text=True)
            times.append(time.perf_counter() - start)
    return f"{done.stdout.strip()} [{done.returncode}]", min(times)


def measure(program):
    for name, made, size in FILES:
        for count in (size, 2 * size, 4 * size):
            text = made(count)
            printed, seconds = checked(program, text)
            print(f"{name}: {count:,}, {len(text) / 1e6:.2f} MB: {printed}, {1000 * seconds:.1f} ms", flush=True)


if sys.argv[1:] == ["most", "1"]:
    print(settings(count=1_024), end="")
elif sys.argv[1:] == ["most", "2"]:
    print(settings(count=4_096, version=2), end="")
elif sys.argv[1:2] == ["measure"] and len(sys.argv) == 3:
    measure(sys.argv[2])
else:
    sys.exit(__doc__)
