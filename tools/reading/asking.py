"""How a program is run again and again at little cost, each time in a process of its own."""

import os
import resource
import select
import signal
import socket
import struct
import subprocess

from .answers import Answer

COPIES = os.path.join(os.path.dirname(os.path.dirname(os.path.abspath(__file__))), "copies.c")
# What Python ignores and a program doesn't.
SIGNALS = (signal.SIGPIPE, signal.SIGXFSZ)
# Alone a program has so many times its seconds by the clock, since others may keep the machine busy.
SLOWER = 10
# The longest message to the copies.
MOST = 1 << 17


def library(folder):
    """Builds the library of copies; its path."""
    path = os.path.join(folder, "copies.so")
    subprocess.run(["cc", "-O1", "-shared", "-fPIC", "-o", path, COPIES], check=True)
    return path


def emptied(file):
    """The bytes of a file in memory, which has none then."""
    size = os.fstat(file).st_size
    data = os.pread(file, size, 0) if size else b""
    if size:
        os.ftruncate(file, 0)
        os.lseek(file, 0, os.SEEK_SET)
    return data


def ended_by(status, number):
    """Whether a status, as it is waited for, tells that this signal ended the process."""
    return os.WIFSIGNALED(status) and os.WTERMSIG(status) == number


class Runs:
    """Runs programs one after the other. What one writes goes to files in memory, which are emptied for the next one."""

    def __init__(self):
        self.files = [os.open(os.devnull, os.O_RDONLY), os.memfd_create("out"), os.memfd_create("told")]

    def end(self):
        """Ends what is kept for the next run but the files."""

    def close(self):
        """Ends all that is kept."""
        self.end()
        for file in self.files:
            os.close(file)

    def spawned(self, command, variables, *others):
        """A process with these words; its standard files are those in memory, and others stand behind them."""
        files = [(os.POSIX_SPAWN_DUP2, file, place) for place, file in enumerate([*self.files, *others])]
        return os.posix_spawnp(command[0], command, variables, file_actions=files, setsigdef=SIGNALS)

    def answer(self, status, late):
        """The answer of what has ended so."""
        out, told = map(emptied, self.files[1:])
        return Answer(None if late else os.waitstatus_to_exitcode(status), out, told)

    def asked(self, command, seconds, alone=False):
        """The answer of a program that is run with these words, in so many seconds at most; alone these are seconds of a
        processor."""
        child = self.spawned(command, os.environ)
        watcher, ended = os.pidfd_open(child), False
        try:
            if alone:
                resource.prlimit(child, resource.RLIMIT_CPU, (seconds, seconds + 1))
            ended = bool(select.select([watcher], [], [], seconds * SLOWER if alone else seconds)[0])
        finally:
            if not ended:
                os.kill(child, signal.SIGKILL)
            _, status = os.waitpid(child, 0)
            os.close(watcher)
        return self.answer(status, not ended or alone and ended_by(status, signal.SIGXCPU))


class Copies(Runs):
    """The same for one program that is loaded once: each run begins in a copy of the loaded process (tools/copies.c). What
    is to run alone, and another program, is run as without."""

    def __init__(self, program, copier):
        super().__init__()
        self.program, self.copier = program, copier
        self.server = self.line = None

    def begin(self):
        """Loads the program, and binds all its names."""
        self.line, its = socket.socketpair(socket.AF_UNIX, socket.SOCK_SEQPACKET)
        with its:
            variables = {**os.environ, "LD_PRELOAD": self.copier, "LD_BIND_NOW": "1"}
            self.server = self.spawned([self.program], variables, its.fileno())

    def end(self):
        """Ends the loaded process, so that the next run loads the program anew."""
        if self.line:
            self.line.close()
            os.waitpid(self.server, 0)
            self.server = self.line = None

    def asked(self, command, seconds, alone=False):
        message = b"".join(os.fsencode(word) + b"\0" for word in (str(seconds), *command[1:]))
        if alone or command[0] != self.program or len(message) > MOST:
            return super().asked(command, seconds, alone)
        if not self.line:
            self.begin()
        self.line.send(message)
        told = self.line.recv(4)
        if not told:
            raise ChildProcessError(f"{self.program} can't be copied")
        status, = struct.unpack("i", told)
        return self.answer(status, ended_by(status, signal.SIGALRM))
