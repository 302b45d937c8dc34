"""A shell on a terminal, which a test types into."""

import os
import pty
import select
import signal
import time

COMMANDS = {"bash": ["bash", "--norc", "--noprofile", "-i"], "zsh": ["zsh", "-f", "-i"], "fish": ["fish", "--no-config", "-i"]}


class Terminal:
    """A shell that runs on a terminal, in a folder that is its home."""

    def __init__(self, shell, folder):
        self.said = b""
        self.process, self.terminal = pty.fork()
        if self.process == 0:
            os.chdir(folder)
            os.environ.update(TERM="xterm", HOME=str(folder))
            os.execvp(COMMANDS[shell][0], COMMANDS[shell])

    def __enter__(self):
        return self

    def __exit__(self, *raised):
        os.kill(self.process, signal.SIGKILL)
        os.waitpid(self.process, 0)
        os.close(self.terminal)

    def types(self, text):
        """Types a text. What the shell has said before is forgotten."""
        self.said = b""
        os.write(self.terminal, text.encode())

    def says(self, text, seconds=20):
        """Whether the shell says this within so many seconds."""
        end = time.monotonic() + seconds
        while text.encode() not in self.said and time.monotonic() < end:
            if select.select([self.terminal], [], [], 0.2)[0]:
                try:
                    self.said += os.read(self.terminal, 65536)
                except OSError:
                    return False
        return text.encode() in self.said
