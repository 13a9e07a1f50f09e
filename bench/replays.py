"""What the scripts that measure ./dlog replay share: schedules of a shape, and a run of a program on one.

A schedule is made in a process of its own and lies in a file, so that the caller stays small: the system tells as the most
memory of a child at least what its parent had when it began.
"""
import os, resource, subprocess, sys, tempfile, time

TOP = os.path.dirname(os.path.dirname(os.path.abspath(__file__)))
PROGRAM = os.path.join(TOP, "dlog")
OPENING = b"setup 3 3 3 2\njoin 0\ncreate 0 s\nsettle\nopen 0 s\nsettle\n"
MOST_BYTES = 16777216

APPEND = b"append 0 1 61626364\n"
END = b"flush 0\nsettle\n"


def long_append(number):
    """An append of 8,000 payload bytes that differ from one to the next."""
    digits = b"%016x" % (number * 0x9E3779B97F4A7C15 % 2**64)
    return b"append 0 1 " + digits * 1000 + b"\n" + END


SHAPES = {
    "settles": lambda n: b"settle\n" * n,
    "appends in full entries": lambda n: APPEND * (n - 2) + END,
    "append, flush, settle": lambda n: (APPEND + END) * (n // 3),
    "a thousand appends a settle": lambda n: (APPEND * 1000 + END) * (n // 1002),
    "payloads of 8,000 bytes": lambda n: b"".join(map(long_append, range(n // 3))),
}


def schedule(shape, lines):
    """A file with a schedule of so many lines, at its begin; none where it is past the limit of a schedule."""
    out = tempfile.TemporaryFile()
    subprocess.run([sys.executable, os.path.abspath(__file__), shape, str(lines)], stdout=out, check=True)
    out.seek(0)
    return out if os.fstat(out.fileno()).st_size <= MOST_BYTES else None


class Run:
    """One run of a program on a schedule: seconds that passed, processor seconds, MiB of memory, bytes out."""

    def __init__(self, command, given):
        with tempfile.TemporaryFile() as taken:
            given.seek(0)
            begun = time.monotonic()
            child = subprocess.Popen(command, stdin=given, stdout=taken)
            _, status, usage = os.wait4(child.pid, 0)
            child.returncode = os.waitstatus_to_exitcode(status)
            self.seconds = time.monotonic() - begun
            self.processor = usage.ru_utime + usage.ru_stime
            self.memory = usage.ru_maxrss / 1024
            self.out = taken.seek(0, os.SEEK_END)
        if status:
            sys.exit("%s: status %d" % (command[0], child.returncode))


def least_memory():
    """MiB below which the memory of a program can't be told: those of this process."""
    return resource.getrusage(resource.RUSAGE_SELF).ru_maxrss / 1024


def built():
    """The program, proved and built where that is needed: ./dlog itself would count as a part of it."""
    subprocess.run([PROGRAM, "replay"], stdin=subprocess.DEVNULL, check=True)
    return os.path.join(TOP, "crates", "dlog", "out", "dlog")


if __name__ == "__main__":
    sys.stdout.buffer.write(OPENING + SHAPES[sys.argv[1]](int(sys.argv[2])))
