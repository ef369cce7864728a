"""The built program ($IGVM, or crates/igvm_tool/out/igvm_tool), run as a caller would, and its usage text."""
import os
import signal

ROOT = os.path.dirname(os.path.dirname(os.path.abspath(__file__)))
PATH = os.path.abspath(os.environ.get("IGVM") or os.path.join(ROOT, "crates", "igvm_tool", "out", "igvm_tool"))
SECONDS = 60                        # a run that takes longer is ended


def is_built():
    return os.access(PATH, os.X_OK)


def shared_memory():
    """Where temporary files go: many small ones are written, best into memory."""
    shared = "/dev/shm" if os.access("/dev/shm", os.W_OK) else None
    return os.environ.get("TMPDIR", shared)


class Program:
    """Runs the program, with its output and error kept in files of this folder."""

    def __init__(self, folder):
        self.output, self.error = (os.path.join(folder, name) for name in ("output", "error"))
        writing = os.O_WRONLY | os.O_CREAT | os.O_TRUNC
        self.streams = [(os.POSIX_SPAWN_OPEN, 0, os.devnull, os.O_RDONLY, 0),
                        (os.POSIX_SPAWN_OPEN, 1, self.output, writing, 0o600),
                        (os.POSIX_SPAWN_OPEN, 2, self.error, writing, 0o600)]

    def run(self, words):
        """Status (of a death by signal N: -N), output and error."""
        process = os.posix_spawn(PATH, [PATH, *words], os.environ, file_actions=self.streams)
        watch = signal.signal(signal.SIGALRM, lambda *_: os.kill(process, signal.SIGKILL))
        signal.alarm(SECONDS)
        status = os.waitstatus_to_exitcode(os.waitpid(process, 0)[1])
        signal.alarm(0)
        signal.signal(signal.SIGALRM, watch)
        return status, read_text(self.output), read_text(self.error)


def read_text(path):
    """What was printed. Bytes that are no UTF-8, which the program never prints, stand as escapes."""
    with open(path, encoding="utf-8", errors="backslashreplace", newline="") as file:
        return file.read()


def usage():
    """The usage text: the block of docs/PROGRAM.md that begins with `usage: `."""
    with open(os.path.join(ROOT, "docs", "PROGRAM.md"), encoding="utf-8") as page:
        lines = page.read().splitlines()
    first = next(at for at, line in enumerate(lines) if line.strip().startswith("usage: "))
    last = next(at for at in range(first, len(lines)) if not lines[at].strip() or lines[at].startswith("```"))
    indent = len(lines[first]) - len(lines[first].lstrip())
    return "".join(line[indent:] + "\n" for line in lines[first:last])
