"""Runs rows by the programs themselves, each command in a process of its own: a second hand beside
crates/rows, which calls both programs' commands within one. So real statuses, standard output and
standard error are compared. crates/rows/src/reading.rt says how rows are written; their form is
checked there.

usage: bench/rows --programs FOLDER [NAME.rows ..]    by FOLDER/rollout and FOLDER/rollout-tools
       bench/rows --compiled [NAME.rows ..]           by those that `./rollout --try` keeps
"""
import os
import re
import resource
import signal
import socket
import subprocess
import sys
import threading
import time
from pathlib import Path

ROOT = Path(__file__).resolve().parent.parent
NAMES = ("rollout", "rollout-tools")
TOOLS = {"check", "diff", "explain", "trace", "order", "simulate", "ask", "report", "why", "stage",
         "completion"}
ESCAPE = re.compile(rb" / |\\(?:x([0-9a-fA-F]{2})|(.))", re.S)
SPELLED = {b"n": b"\n", b"r": b"\r", b"t": b"\t", b"\\": b"\\"}
PATIENCE, LATE = 120, 0.5
# What begins a row or a call, and what is wanted of it.
ROWS = {"$", "<", "send", "narrow", "no-memory", "background", "slowly"}
CALLS, WANTS = {*ROWS, "%", "link", "give", "wait"}, {*"|.!=?~"}
# Lines on standard error that crates/rows doesn't see: those that the commands' runtime writes.
NOTED = re.compile(rb"until the server restarts, unless|apps gone: ")
# A server's log, which goes into files.
LOGGED = re.compile(r'^\{"time":"[^"]*",.*?"kind":(?=")')


def unescaped(text):
    def spelled(it):
        return bytes([int(it[1], 16)]) if it[1] else SPELLED[it[2]] if it[2] else b"\n"
    return ESCAPE.sub(spelled, text.encode())


def words_of(line):
    """Spaces divide the words; two single quotes enclose one word, in which escapes hold."""
    words = []
    for place, text in enumerate(line.split("'")):
        words += [unescaped(text).decode()] if place % 2 else text.split()
    return words


class Row:
    """A step, and what is wanted of it: a status, both outputs, and parts of either."""

    def __init__(self, number, mark, text):
        self.number, self.mark, self.text = number, mark, text
        self.status, self.out, self.err, self.parts = 0, "", "", []
        self.is_row = mark in ROWS

    def want(self, mark, text):
        if mark == "=":
            self.status = int(text)
        elif mark == "~":
            self.parts.append(text)
        elif mark == ".":
            self.out += text
        elif mark == "!" or mark == "?" and text.startswith("refused "):
            self.err += text + "\n"
            self.status = 1 if mark == "?" else self.status
        elif mark == "?" and text == "usage":
            self.err, self.status = self.err + "error: ...\n", 2
        else:
            self.out += text + "\n"

    def is_met(self, came):
        status, out, err = came
        if not self.is_row:
            return status == self.status
        parts = all(it in out or it in err for it in self.parts)
        return status == self.status and is_like(out, self.out) and is_like(err, self.err) and parts


def is_like(text, wanted):
    """Whether a text is the wanted one, of which the last `...` at a line's end is any text."""
    beginning, dots, end = wanted.rpartition("...\n")
    if not dots:
        return text == wanted
    return text.startswith(beginning) and text[len(beginning):].endswith(end)


def free_ports(count):
    taken = [socket.create_server(("127.0.0.1", 0)) for _ in range(count)]
    ports = [it.getsockname()[1] for it in taken]
    for it in taken:
        it.close()
    return ports


def filled(text, folder):
    if "<port1>" not in text:
        return text.replace("<folder>", str(folder))
    text = text.replace("<day>", str(int((time.time() - 1167609600) // 86400)))
    for number, port in enumerate(free_ports(12), 1):
        text = text.replace(f"<port{number}>", str(port))
    return text


def lines_of(text):
    """Each line with its number; those of a block once for each line of its table."""
    block, part = [], ""
    for number, line in enumerate(text.split("\n"), 1):
        if not part and line == "each":
            block, part = [], "block"
        elif part == "block" and line == "rows":
            part = "table"
        elif part == "table" and not line:
            part = ""
        elif part == "block":
            block.append(line)
        elif part == "table" and not line.startswith("# "):
            columns = line.split(" | ")
            for it in block:
                for place, column in enumerate(columns, 1):
                    it = it.replace(f"<{place}>", column)
                yield number, it
        elif not part:
            yield number, line


def steps_of(text):
    """The steps: a file's name with its bytes, or a row."""
    steps, in_text = [], False
    for number, line in lines_of(text):
        mark, _, rest = line.partition(" ")
        if mark == "--" or mark == "+":
            name, _, spelled = rest.partition(" ") if mark == "+" else (rest, "", "")
            steps.append([name, unescaped(spelled)])
            in_text = mark == "--"
        elif mark == "copies":
            times, _, spelled = rest.partition(" ")
            steps[-1][1] += int(times) * unescaped(spelled)
            in_text = False
        elif mark in CALLS:
            steps.append(Row(number, mark, rest))
            in_text = False
        elif in_text:
            steps[-1][1] += line.encode() + b"\n"
        elif mark in WANTS:
            steps[-1].want(mark, rest)
    return steps


class Runner:
    """The programs, and what runs in the background of a folder."""

    def __init__(self, programs, folder):
        self.programs, self.folder, self.background = programs, folder, []

    def command(self, words):
        if words and words[0] in NAMES:
            return [*self.programs[words[0]], *words[1:]]
        return [*self.programs[NAMES[bool(words) and words[0] in TOOLS]], *words]

    def begun(self, text, is_narrow=False):
        """A process, whose log goes into files, and the list of its other lines."""
        def narrow():
            signal.signal(signal.SIGXFSZ, signal.SIG_IGN)
            resource.setrlimit(resource.RLIMIT_FSIZE, (10, 10))

        how = {"preexec_fn": narrow, "restore_signals": False} if is_narrow else {}
        out = open(self.folder / ".narrow", "wb") if is_narrow else subprocess.PIPE
        process = subprocess.Popen(
            self.command(words_of(text)), cwd=self.folder, env={"PATH": os.environ["PATH"]},
            stdin=subprocess.DEVNULL, stdout=out, stderr=subprocess.PIPE, **how)
        outputs = [b"", b""]
        threads = [threading.Thread(target=self.note, args=(process.stderr, outputs))]
        if not is_narrow:
            threads.append(threading.Thread(target=self.take, args=(process.stdout, outputs)))
        for it in threads:
            it.start()
        return process, outputs, threads

    def take(self, stream, outputs):
        outputs[0] = stream.read()

    def note(self, stream, outputs):
        for line in stream:
            if found := LOGGED.match(line.decode(errors="replace")):
                rest = line.decode(errors="replace")[found.end():]
                name = "connections" if rest.startswith('"connection"') else "log"
                with open(self.folder / name, "a") as file:
                    file.write(rest)
            elif not NOTED.match(line):
                outputs[1] += line

    def ended(self, process, outputs, threads):
        try:
            process.wait(PATIENCE)
        except subprocess.TimeoutExpired:
            process.kill()
        for it in threads:
            it.join(PATIENCE)
        return process.wait(), *(it.decode(errors="replace") for it in outputs)

    def replied(self, stream):
        bytes_read = b""
        while piece := stream.recv(65536):
            bytes_read += piece
        return 0, bytes_read.decode(errors="replace").replace("\r", "\\r"), ""

    def connected(self, port, given):
        stream = socket.create_connection(("127.0.0.1", int(port)), PATIENCE)
        stream.sendall(given)
        return stream

    def sent(self, text):
        port, name, *end = text.split(" ")
        with self.connected(port, (self.folder / name).read_bytes()) as stream:
            if end:
                stream.shutdown(socket.SHUT_WR)
            return self.replied(stream)

    def called(self, row):
        if row.mark == "<":
            return 0, (self.folder / row.text).read_text(errors="replace"), ""
        if row.mark == "send":
            return self.sent(row.text)
        if row.mark == "link":
            name, _, target = row.text.partition(" ")
            (self.folder / name).symlink_to(target)
            return 0, "", ""
        return self.ended(*self.begun(row.text, row.mark == "narrow"))

    def start(self, row):
        """Begins what runs in the background; returns what gives its end."""
        port, _, rest = row.text.partition(" ")
        if row.mark == "background":
            running = self.begun(rest)
            until = time.monotonic() + 30
            while running[0].poll() is None and time.monotonic() < until:
                with socket.socket() as tried:
                    if tried.connect_ex(("127.0.0.1", int(port))) == 0:
                        break
                time.sleep(0.01)
            return lambda: self.ended(*running)
        if row.mark == "slowly":
            count, _, name = rest.partition(" ")
            given = (self.folder / name).read_bytes()
            stream = self.connected(port, given[:int(count)])
            return self.later(lambda: self.rest_of(stream, given[int(count):]))
        server = socket.create_server(("127.0.0.1", int(port)))
        return self.later(lambda: self.give(server, (self.folder / rest).read_bytes()))

    def later(self, call):
        found = []
        thread = threading.Thread(target=lambda: found.append(call()))
        thread.start()

        def end():
            thread.join(PATIENCE)
            return found[0]
        return end

    def rest_of(self, stream, given):
        time.sleep(LATE)
        with stream:
            stream.sendall(given)
            return self.replied(stream)

    def give(self, server, given):
        with server, server.accept()[0] as stream:
            while (byte := stream.recv(1)) not in (b"", b"\n"):
                pass
            try:
                stream.sendall(given)
            except OSError:
                pass
        return 0, "", ""

    def do(self, row):
        """The row that this step judges, with what came of it; None if it only begins."""
        if row.mark in ("background", "slowly", "give"):
            self.background.append((row, self.start(row)))
            return None
        if row.mark == "wait":
            begun, end = self.background.pop()
            return begun, end()
        return row, self.called(row)


def run(programs, folder, name):
    """Whether all rows of a file are right; prints their number, and each wrong one."""
    rows = wrong = left = 0
    runner = Runner(programs, folder)
    for step in steps_of(filled((folder / name).read_text(), folder)):
        if not isinstance(step, Row):
            (folder / step[0]).parent.mkdir(parents=True, exist_ok=True)
            (folder / step[0]).write_bytes(step[1])
            continue
        # Memory for words is refused within a process only.
        if step.mark == "no-memory":
            left += 1
            continue
        if (judged := runner.do(step)) is None:
            continue
        row, came = judged
        rows += row.is_row
        if not row.is_met(came):
            wrong += 1
            print(f"line {row.number}: {row.mark} {row.text}\nwanted status {row.status}\n{row.out}"
                  f"{row.err}with {row.parts}\ncame status {came[0]}\n{came[1]}{came[2]}")
    counts = f"{wrong} of {rows} rows are wrong" if wrong else f"{rows} rows"
    print(f"{name}: {counts}{f', and {left} of one process only' if left else ''}", flush=True)
    return not wrong


def compiled():
    """How each program that is compiled from its sources, and not proved, is called."""
    sys.path.insert(0, str(ROOT))
    from building import kit, trying
    loader = kit.find_kit().folder / "toolchain" / "lib" / "ld-linux-x86-64.so.2"
    words = [loader, "--inhibit-cache", "--library-path", loader.parent]
    return {it: [*words, trying.compiled(it)] for it in NAMES}


def main():
    folder, *files = sys.argv[1:]
    built = {it: [Path(folder).resolve() / it] for it in NAMES}
    programs = compiled() if folder == "--compiled" else built
    results = [run(programs, Path.cwd(), it) for it in files]
    sys.exit(not all(results))


if __name__ == "__main__":
    main()
