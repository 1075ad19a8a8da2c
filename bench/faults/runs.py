"""Runs of the program in folders of their own, with the preloaded library of `watched.c` where it is wanted."""
import os
import subprocess
import tempfile

HERE = os.path.dirname(os.path.abspath(__file__))
EXAMPLES = os.path.join(HERE, "..", "..", "examples")
TIME_LIMIT = 20
STATUSES = range(10)


class Left:
    """What a run left: its status (below 0 for a signal, None where it did not end in time), and the bytes of its outputs."""

    def __init__(self, status, outputs):
        self.status = status
        self.outputs = outputs

    def is_front_of(self, whole):
        return all(whole.outputs[name].startswith(bytes) for name, bytes in self.outputs.items())


def example(name):
    with open(os.path.join(EXAMPLES, name), "rb") as file:
        return file.read()


def content(path):
    if not os.path.exists(path):
        return b""
    with open(path, "rb") as file:
        return file.read()


def run(program, words, files, written=(), **settings):
    """Runs the program with these words in a folder that holds these files; `written` are the files that it may write."""
    with tempfile.TemporaryDirectory() as folder:
        for name, bytes in files.items():
            with open(os.path.join(folder, name), "wb") as file:
                file.write(bytes)
        try:
            done = subprocess.run(
                [program, *words],
                cwd=folder,
                env={**os.environ, **settings},
                stdin=subprocess.DEVNULL,
                capture_output=True,
                timeout=TIME_LIMIT,
            )
        except subprocess.TimeoutExpired:
            return Left(None, {})
        outputs = {name: content(os.path.join(folder, name)) for name in written}
        return Left(done.returncode, {"report": done.stdout, "faults": done.stderr, **outputs})


def translated(program, library):
    """The Verilog and the VHDL models of the accepted cells of a library."""
    left = run(program, ["translate", "a.lib", "a.v", "a.vhd"], {"a.lib": library}, ["a.v", "a.vhd"])
    if left.status not in (0, 3):
        raise SystemExit("translate: status %s\n%s" % (left.status, left.outputs.get("faults", b"").decode()))
    return left.outputs["a.v"], left.outputs["a.vhd"]


class Watch:
    """The library of `watched.c`, built by gcc into a folder."""

    def __init__(self, folder):
        self.library = os.path.join(folder, "watched.so")
        self.figures = os.path.join(folder, "figures")
        source = os.path.join(HERE, "watched.c")
        subprocess.run(["gcc", "-O1", "-shared", "-fPIC", "-o", self.library, source], check=True)

    def measured(self, program, words, files, written=()):
        """The run, its requests for memory, and its stack in bytes."""
        left = run(program, words, files, written, LD_PRELOAD=self.library, WATCHED_FILE=self.figures)
        if left.status is None or not os.path.exists(self.figures):
            raise SystemExit("%s: it did not end as a program does (status %s)" % (words, left.status))
        requests, stack = map(int, content(self.figures).split())
        os.remove(self.figures)
        return left, requests, stack

    def refused(self, program, words, files, written, request):
        """The run with this request for memory refused."""
        return run(program, words, files, written, LD_PRELOAD=self.library, REFUSED_REQUEST=str(request))
