"""What giop-chart and giop-report share: their words, which giop-keys has too, and the objects that giop-json writes of the lines
that they are given.

A file that begins with `{` has such objects itself. Other programs of the package stand beside the one that runs.
"""

from __future__ import annotations

import argparse
import json
import os
import re
import select
import signal
import subprocess
import sys
from pathlib import Path
from typing import Any, Dict, Iterator, List, NoReturn, Optional, Sequence

MOST_READ = 1 << 16  # octets at once
PATIENCE = 0.2  # seconds without input after which an interrupt is looked for
VERSION = "1.0.0"  # as giopdump has it: checks/manual.sh

Object = Dict[str, Any]


class Failure(Exception):
    """Why a program ends, and with which status."""

    def __init__(self, status: int, said: str) -> None:
        super().__init__(said)
        self.status = status


def shown(text: str) -> str:
    """What stands on the command line as it is printed: an octet outside 20 to 7e is \\xHH."""
    return "".join(chr(octet) if 0x20 <= octet <= 0x7E else f"\\x{octet:02x}" for octet in os.fsencode(text))


class Words(argparse.ArgumentParser):
    """The words of a command line; what is wrong with them is shown."""

    def add_common(self) -> None:
        """The file, and the word that prints the version."""
        self.add_argument("-V", "--version", action="version", version=f"%(prog)s {VERSION}", help="print the version")
        self.add_argument("file", metavar="FILE", nargs="?", help="the lines; standard input where it is missing")

    def error(self, message: str) -> NoReturn:
        super().error(shown(message))


class Program:
    """A program that is fed with the octets of the input."""

    def __init__(self, words: Sequence[str]) -> None:
        pipe = subprocess.PIPE
        self.process = subprocess.Popen(
            words, bufsize=MOST_READ, stdin=pipe, stdout=pipe, stderr=pipe, start_new_session=True
        )
        assert self.process.stdin and self.process.stdout
        self._stdin, self.out = self.process.stdin, self.process.stdout

    def feed(self, octets: bytes) -> bool:
        """Gives it octets; whether it hasn't ended."""
        try:
            self._stdin.write(octets)
            self._stdin.flush()
        except BrokenPipeError:
            return False
        return True

    def close_input(self) -> None:
        """Gives it nothing more from this process."""
        self._stdin.close()

    def close_output(self) -> None:
        """Reads nothing of it in this process."""
        assert self.process.stderr
        self.out.close()
        self.process.stderr.close()


class Source:
    """The octets of a file, or of standard input, and what programs make of them."""

    def __init__(self, program: str, path: Optional[str]) -> None:
        self._program, self._name = program, "standard input" if path is None else shown(path)
        try:
            self._descriptor = 0 if path is None else os.open(path, os.O_RDONLY)
        except OSError:
            raise Failure(4, f"{self._name}: cannot read") from None
        self._programs: List[Program] = []
        self._feeder = 0  # the process that gives them the octets
        self._is_stopped = self._is_unread = False
        self._first = self._read()
        signal.signal(signal.SIGINT, self._stop)

    @property
    def has_objects(self) -> bool:
        """Whether it has objects and no lines."""
        return self._first.startswith(b"{")

    def start(self, name: str, *words: str) -> Program:
        """Starts a program of the package on the octets."""
        program = Program([str(Path(os.path.abspath(sys.argv[0])).parent / name), *words])
        self._programs.append(program)
        return program

    def objects(self, *words: str) -> Iterator[Object]:
        """The objects that it has itself, or that giop-json makes of its lines by these words."""
        for number, line in enumerate(self.texts(*words), 1):
            yield self.parsed(number, line)

    def texts(self, *words: str) -> Iterator[bytes]:
        """The texts of these objects, each with its line feed."""
        if self.has_objects:
            program = Program(["cat"])
            self._programs.append(program)
        else:
            program = self.start("giop-json", *words)
        self._start_feeding()
        yield from program.out

    def parsed(self, number: int, text: bytes) -> Object:
        """The object of the text with this number, from 1."""
        try:
            found = json.loads(text)
        except ValueError:
            found = None
        if not isinstance(found, dict):
            self.end()
            raise Failure(3, f"{self._name}:{number}: giop-json writes no such line")
        return found

    def end(self) -> None:
        """Ends what is read, before its end."""
        os.kill(self._feeder, signal.SIGKILL)
        for program in self._programs:
            program.process.kill()

    def finish(self) -> None:
        """Says what giop-json said of the lines; raises what made it fail."""
        _, status = os.waitpid(self._feeder, 0)
        self._feeder = 0
        if status:
            raise Failure(4, "read failed")
        for program in self._programs:
            assert program.process.stderr
            said = program.process.stderr.read().decode("ascii", "replace")
            status = program.process.wait()
            found = re.search(r"^[a-z-]+: standard input(:\d+: .*)$", said, re.M)
            if status == 3 and found:
                raise Failure(3, self._name + found[1])
            if status > 1:
                raise Failure(status, said.strip().split(": ", 1)[-1])

    def _read(self) -> bytes:
        try:
            return os.read(self._descriptor, MOST_READ)
        except OSError:
            self._is_unread = True
            return b""

    def _start_feeding(self) -> None:
        """Lets a process of its own give the programs all octets, so that neither it nor this one waits for the other."""
        # An interrupt waits until this process knows the other, which has to hear of it.
        signal.pthread_sigmask(signal.SIG_BLOCK, {signal.SIGINT})
        self._feeder = os.fork()
        signal.pthread_sigmask(signal.SIG_UNBLOCK, {signal.SIGINT})
        for program in self._programs:
            (program.close_input if self._feeder else program.close_output)()
        if not self._feeder:
            signal.signal(signal.SIGPIPE, signal.SIG_IGN)
            self._feed()
            os._exit(self._is_unread)

    def _feed(self) -> None:
        """Gives the programs all octets, each as long as it reads."""
        programs, octets = self._programs, self._first
        while octets and programs:
            programs = [program for program in programs if program.feed(octets)]
            while not self._is_stopped and not select.select([self._descriptor], [], [], PATIENCE)[0]:
                pass
            octets = b"" if self._is_stopped else self._read()

    def _stop(self, *_: object) -> None:
        """At an interrupt what came is the whole."""
        self._is_stopped = True
        if self._feeder:
            os.kill(self._feeder, signal.SIGINT)


def write(text: str) -> None:
    """Writes to standard output at once."""
    left = memoryview(text.encode("utf-8"))
    try:
        while left:
            left = left[os.write(1, left) :]
    except OSError:
        raise Failure(4, "write failed") from None


def guarded(program: str, failure: Failure) -> int:
    """Says why the program ends; gives its status."""
    print(f"{program}: {failure}", file=sys.stderr)
    return failure.status


def endpoint(address: str, port: Optional[int]) -> str:
    """An endpoint by its address and port."""
    return f"[{address}]:{port}" if ":" in address else f"{address}:{port}"
