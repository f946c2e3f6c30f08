"""What a message costs a node that passes it on over SCTP: pairs of M2PA ends over usrsctp, and the node between them.

    python3 tests/interop/through.py [COUNT [PAIRS [strace]]]

Each end sends COUNT messages (300,000 by default) of 100 octets to the other one of its pair, as many in a datagram
as fit. The more pairs there are (2 by default), the fuller are the datagrams. What the node took of the processor is
read from /proc; with `strace` its calls of the kernel are counted too. It needs what served_node.py needs, on a
machine that does nothing else.
"""
import os
import pathlib
import shutil
import signal
import subprocess
import sys
import tempfile
import time

HERE = pathlib.Path(__file__).resolve().parent
sys.path[:0] = [str(HERE), str(HERE.parent)]

from harness import HOST, TIMERS, Node, free_port, wait_until  # noqa: E402

OCTETS, NODE = 100, 99
NODE_SCTP, END_SCTP = 3500, 3600
TICKS = {**dict.fromkeys(TIMERS, 600), "l4": 3, "t1": 4, "t2": 6, "t3": 4, "t4": 4, "t6": 4}


def settings(udp, console, ports):
    lines = ["version = 2", f"own = {NODE}", "network = 2", "window = 127", "pool = 65535", "users = [5]"]
    lines += ["subsystems = []", f'serve = {{ tick_ms = 100, udp = "{HOST}:{udp}", console = "{HOST}:{console}" }}']
    lines += ["[timers]", *(f"{name} = {count}" for name, count in TICKS.items())]
    for point, remote in ports.items():
        lines += [f'[[set]]\nname = "to-{point}"\nadjacent = {point}', f'[[link]]\nname = "e{point}"\nset = "to-{point}"']
        lines += [f'slc = 0\nremote = "{HOST}:{remote}"\nsctp_port = {NODE_SCTP + point}']
        lines += [f'remote_sctp_port = {END_SCTP + point}\n[[destination]]\npoint = {point}']
        lines += [f'sets = ["to-{point}"]\njoined = false']
    return "\n".join(lines) + "\n"


def seconds(process):
    """What the process took so far: in the program, and in the kernel."""
    fields = pathlib.Path(f"/proc/{process.pid}/stat").read_text().rsplit(")", 1)[1].split()
    return [int(field) / os.sysconf("SC_CLK_TCK") for field in fields[11:13]]


def counted(node):
    lines = (line.split() for line in node.ask("show counters"))
    return {line[1]: int(line[2]) for line in lines if line[1].startswith("datagrams_")}


def other_of(point):
    """The other end of a pair: 1 and 2, 3 and 4, .."""
    return point + 1 if point % 2 else point - 1


def measure(node, program, ports, udp, count, is_traced):
    ends = []
    for point, port in ports.items():
        words = [program, port, udp, END_SCTP + point, NODE_SCTP + point, "listen", point, other_of(point), count]
        ends.append(subprocess.Popen([str(word) for word in words], stdout=subprocess.PIPE, text=True))
    wait_until(lambda: all(state[0] == "InService" for state in node.links().values()), "both links are in service")
    tracer = ["strace", "-c", "-p", str(node.process.pid)]
    traced = subprocess.Popen(tracer, stderr=subprocess.PIPE, text=True) if is_traced else None
    before, datagrams, began = seconds(node.process), counted(node), time.monotonic()
    for end in ends:
        last = end.communicate(timeout=300)[0].splitlines()[-1]
        assert end.returncode == 0, last
    took = [after - early for after, early in zip(seconds(node.process), before)]
    if traced:
        traced.send_signal(signal.SIGINT)
        print(traced.communicate()[1])
    passed = len(ends) * count
    print(f"{passed} messages, each once and in order, in {time.monotonic() - began:.1f} s")
    print(f"{1e6 * sum(took) / passed:.2f} microseconds of the processor a message: {took[0]:.2f} s, kernel {took[1]:.2f} s")
    print({name: value - datagrams[name] for name, value in counted(node).items()})


def main(count, pairs, is_traced):
    udp, console = free_port(), free_port()
    ports = {point: free_port() for point in range(1, 2 * pairs + 1)}
    with tempfile.TemporaryDirectory() as room:
        program = pathlib.Path(room) / "m2pa_load"
        source, libraries = HERE / "m2pa_end.c", ["-lusrsctp", "-lpthread"]
        subprocess.run(["cc", "-O2", f"-DLOAD={OCTETS}", "-o", program, source, *libraries], check=True)
        node = Node(pathlib.Path(room) / "node", settings(udp, console, ports), console, [])
        try:
            node.start()
            measure(node, program, ports, udp, count, is_traced)
        finally:
            node.kill()


if __name__ == "__main__":
    if shutil.which("cc") is None or not pathlib.Path("/usr/include/usrsctp.h").exists():
        sys.exit("there is no C compiler, or no usrsctp (libusrsctp-dev)")
    words = [int(word) for word in sys.argv[1:] if word != "strace"]
    main(*(words + [300_000, 2][len(words) :]), "strace" in sys.argv)
