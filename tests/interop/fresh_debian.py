"""The package in a fresh Debian 12 without the kit: two nodes as services, a message, and how they end.

    python3 tests/interop/fresh_debian.py PACKAGE [FOLDER]

It needs root, debootstrap, systemd-nspawn and apt, whose mirror it takes. FOLDER gets Debian, and is used again if it
has it; without it that goes to a folder which is removed. Each thing that is looked at has a line; the status is 0 if
all of them are as they should be.
"""

from __future__ import annotations

import contextlib
import re
import shutil
import subprocess
import sys
import tempfile
import time
from pathlib import Path
from typing import Callable, Iterator

ROOT = Path(__file__).resolve().parent.parent.parent
SUITE = "bookworm"
PACKAGES = "systemd,systemd-sysv"
SETTINGS, UNIT = "/etc/sixhadobe/{}.toml", "stp@{}"
NODES = ("near", "far")
LINKS = 3
# a release complete of the ISDN user part, from point 1 to point 2
MESSAGE = "850240001001001000"
PATIENCE = 40.0


def mirror() -> str:
    """Where apt gets Debian 12 from."""
    words = ["apt-get", "indextargets", "--format", "$(REPO_URI)", "Created-By: Packages", f"Codename: {SUITE}"]
    return subprocess.run(words, capture_output=True, text=True, check=True).stdout.split()[0]


def make_debian(top: Path) -> None:
    """Puts Debian into a folder, unless it is there."""
    if not (top / "etc/debian_version").exists():
        words = ["debootstrap", "--variant=minbase", f"--include={PACKAGES}", SUITE, top, mirror()]
        subprocess.run(words, check=True, stdout=subprocess.DEVNULL)


def settings(name: str) -> str:
    """The example of an end of three links, with the console and the capture in the folders of its service."""
    text = (ROOT / f"examples/sctp_{name}.toml").read_text()
    return re.sub(r'^console = ".*"', f'console = "/run/sixhadobe/{name}/console"', text, flags=re.MULTILINE)


class Machine:
    """A Debian that systemd-nspawn boots, with no network but its own."""

    def __init__(self, top: Path) -> None:
        self.top, self.process, self.first = top, None, 0

    def boot(self) -> None:
        words = ["systemd-nspawn", "--quiet", "--register=no", "--keep-unit", "--private-network", "--boot"]
        words += ["--directory", self.top]
        self.process = subprocess.Popen(words, stdin=subprocess.DEVNULL, stdout=subprocess.DEVNULL,
                                        stderr=subprocess.DEVNULL)
        self.await_true("it boots", self.is_up)

    def is_up(self) -> bool:
        words = ["pgrep", "--parent", str(self.process.pid)]
        inside = subprocess.run(words, capture_output=True, text=True, check=False)
        self.first = int(inside.stdout.split()[0]) if inside.stdout else 0
        return self.first > 0 and self.says("systemctl", "is-system-running") in ("running", "degraded")

    def run(self, *words: str) -> subprocess.CompletedProcess:
        inside = ["nsenter", "--target", str(self.first), "--all", "--", *words]
        return subprocess.run(inside, capture_output=True, text=True, check=False, timeout=PATIENCE)

    def says(self, *words: str) -> str:
        return self.run(*words).stdout.strip()

    def await_true(self, what: str, condition: Callable[[], object]) -> None:
        """Waits until the condition holds, and says how long that took."""
        begun = time.monotonic()
        while not condition():
            if time.monotonic() > begun + PATIENCE:
                raise AssertionError(f"not within {PATIENCE:.0f} s: {what}")
            time.sleep(0.2)
        print(f"{what}: {time.monotonic() - begun:.1f} s", flush=True)

    def power_off(self) -> None:
        self.run("systemctl", "poweroff")
        self.process.wait(PATIENCE)

    def close(self) -> None:
        if self.process is not None and self.process.poll() is None:
            self.process.kill()
            self.process.wait()


def look(what: str, found: object, wanted: object) -> None:
    """Compares what was found with what should be."""
    if found != wanted:
        raise AssertionError(f"{what}: {found}, wanted {wanted}")
    print(f"{what}: {found}", flush=True)


class Services:
    """The two nodes, as services of the machine."""

    def __init__(self, machine: Machine) -> None:
        self.machine = machine

    def install(self, package: Path) -> None:
        shutil.copy(package, self.machine.top / "root")
        installed = self.machine.run("apt-get", "install", "--yes", "--reinstall", f"/root/{package.name}")
        look("apt-get install", installed.returncode, 0)
        for name in NODES:
            (self.machine.top / SETTINGS.format(name).lstrip("/")).write_text(settings(name))

    def control(self, *words: str) -> None:
        look(f"systemctl {' '.join(words)}", self.machine.run("systemctl", *words).returncode, 0)

    def tell(self, name: str, *words: str) -> list[str]:
        return self.machine.says("stp", "tell", SETTINGS.format(name), *words).splitlines()

    def are_in_service(self) -> bool:
        shown = [self.tell(name, "show", "links") for name in NODES]
        return all(len(rows) == LINKS and all(" in service " in row for row in rows) for _, *rows in shown)

    def delivered(self) -> int:
        rows = map(str.split, self.tell("far", "show", "counters"))
        return sum(int(row[-1]) for row in rows if row[1:2] == ["delivered"])

    def state(self, name: str) -> dict[str, str]:
        """How a service ended, or runs."""
        keys = "ActiveState,Result,ExecMainStatus,NRestarts"
        said = self.machine.says("systemctl", "show", UNIT.format(name), f"--property={keys}")
        return dict(line.split("=", 1) for line in said.splitlines())

    def ended_well(self, name: str) -> dict[str, str]:
        ended = {"ActiveState": "inactive", "Result": "success", "ExecMainStatus": "0", "NRestarts": "0"}
        return {**self.state(name), **ended}

    def log(self, name: str) -> str:
        return self.machine.says("journalctl", "--unit", UNIT.format(name), "--output=cat", "--boot")

    def closes(self) -> int:
        """How many links the far node lost since its peer ended them in order."""
        return len(re.findall(r" close e\d \S+ peer$", self.log("far"), flags=re.MULTILINE))


def a_message(services: Services) -> None:
    before = services.delivered()
    answer = services.tell("near", "submit", MESSAGE)
    look("submit", answer[0].split()[0], "queued")
    services.machine.await_true("it is delivered", lambda: services.delivered() == before + 1)


def ends(services: Services) -> None:
    """The near node ends by its unit, then by its console, then by SIGKILL, after which it is started again."""
    services.control("stop", UNIT.format("near"))
    look("the unit", services.state("near"), services.ended_well("near"))
    look("links that the peer closed", services.closes(), LINKS)
    services.control("start", UNIT.format("near"))
    services.machine.await_true("the links are in service", services.are_in_service)
    look("stp tell .. stop", services.tell("near", "stop"), ["stopping"])
    services.machine.await_true("the unit has ended", lambda: services.state("near")["ActiveState"] == "inactive")
    look("the unit", services.state("near"), services.ended_well("near"))
    look("links that the peer closed", services.closes(), 2 * LINKS)
    services.control("start", UNIT.format("near"))
    services.machine.await_true("the links are in service", services.are_in_service)
    services.control("kill", "--kill-who=main", "--signal=KILL", UNIT.format("near"))
    services.machine.await_true("it runs again", lambda: services.state("near")["NRestarts"] == "1")
    services.machine.await_true("the links are in service", services.are_in_service)


def folders(services: Services) -> None:
    """Who may use the console, and where the capture is."""
    stat = services.machine.says("stat", "--format=%A", "/run/sixhadobe/near", "/run/sixhadobe/near/console")
    look("the folder and the socket", stat.split(), ["drwx------", "srw-------"])
    capture = services.machine.says("stat", "--format=%A", "/var/lib/sixhadobe/near/near.pcap")
    look("the capture", capture, "-rw-------")
    words = ["setpriv", "--reuid=nobody", "--clear-groups", "stp", "tell", SETTINGS.format("near"), "show", "links"]
    look("the console for another user", services.machine.run(*words).returncode, 4)
    print(services.machine.says("systemd-analyze", "security", "--no-pager", UNIT.format("near")).splitlines()[-1])


@contextlib.contextmanager
def room() -> Iterator[Path]:
    if len(sys.argv) == 3:
        yield Path(sys.argv[2])
    else:
        with tempfile.TemporaryDirectory() as folder:
            yield Path(folder) / "debian"


def main() -> None:
    package = Path(sys.argv[1])
    with room() as top, contextlib.closing(Machine(top)) as machine:
        make_debian(top)
        machine.boot()
        services = Services(machine)
        services.install(package)
        services.control("enable", "--now", *map(UNIT.format, NODES))
        machine.await_true("the links are in service", services.are_in_service)
        folders(services)
        a_message(services)
        ends(services)
        machine.power_off()
        machine.boot()
        machine.await_true("after a boot the links are in service", services.are_in_service)
        a_message(services)
        look("apt-get purge", machine.run("apt-get", "purge", "--yes", "stp").returncode, 0)
        look("after it the service", machine.says("systemctl", "is-active", UNIT.format("near")), "inactive")
        machine.power_off()


if __name__ == "__main__":
    main()
