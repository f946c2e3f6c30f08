"""Two M2PA ends over usrsctp, and a relay that harms datagrams between them: the end and the relay, tried by themselves.

    python3 tests/interop/two_ends.py

It needs a C compiler and usrsctp (Debian: libusrsctp-dev). Each row is one run; it says how many messages went each way,
and in what time. The status is 0 if each run ended well.
"""
import pathlib
import subprocess
import sys
import tempfile

HERE = pathlib.Path(__file__).parent
# loss and doubling as parts of all datagrams, the longest delay in milliseconds, and how many messages go each way
RUNS = [
    (0.0, 0.0, 0, 5000),
    (0.02, 0.0, 2, 3000),
    (0.0, 0.3, 10, 3000),
    (0.05, 0.05, 5, 2000),
    (0.1, 0.1, 10, 1000),
]
NEAR_UDP, NEAR_RELAY, FAR_RELAY, FAR_UDP = "29899", "29900", "29901", "29902"
NEAR_SCTP, FAR_SCTP = "3565", "3566"


def build(folder):
    program = pathlib.Path(folder) / "m2pa_end"
    subprocess.run(
        ["cc", "-O2", "-Wall", "-o", program, HERE / "m2pa_end.c", "-lusrsctp", "-lpthread"], check=True
    )
    return program


def run(program, loss, doubling, jitter, count):
    relay = subprocess.Popen(
        [sys.executable, HERE / "relay.py", NEAR_RELAY, FAR_RELAY, NEAR_UDP, FAR_UDP]
        + [str(loss), str(doubling), str(jitter), "1"]
    )
    ends = []
    try:
        far = [program, FAR_UDP, FAR_RELAY, FAR_SCTP, NEAR_SCTP, "listen", "2", "1", str(count)]
        near = [program, NEAR_UDP, NEAR_RELAY, NEAR_SCTP, FAR_SCTP, "connect", "1", "2", str(count)]
        ends = [subprocess.Popen(words, stdout=subprocess.PIPE, text=True) for words in (far, near)]
        said = [end.communicate(timeout=180)[0].splitlines() for end in ends]
        return [lines[-1] for lines in said], all(end.returncode == 0 for end in ends)
    finally:
        for process in ends + [relay]:
            process.kill()
            process.wait()


def main():
    fine = True
    with tempfile.TemporaryDirectory() as folder:
        program = build(folder)
        for row in RUNS:
            words, well = run(program, *row)
            fine = fine and well
            print("loss {} doubling {} jitter {} ms, {} messages each way:".format(*row), flush=True)
            for line in words:
                print("   ", line, flush=True)
    return 0 if fine else 1


if __name__ == "__main__":
    sys.exit(main())
