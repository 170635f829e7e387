"""Types at a terminal."""
import os
import pty
import select
import signal
import time
from typing import List


def typed(words: List[str], keys: List[bytes], folder: str, seconds: float = 0.7) -> str:
    """Returns what a shell at a terminal shows after these keys. Each is sent once the shell has been quiet for so many
    seconds."""
    shell, terminal = pty.fork()
    if shell == 0:
        os.chdir(folder)
        os.environ.update(HOME=folder, TERM="dumb", PS1="$ ", PS2="> ")
        os.execvp(words[0], words)
    shown = b""
    for key in [b"", *keys]:
        os.write(terminal, key)
        quiet = time.monotonic() + 10
        while time.monotonic() < quiet and select.select([terminal], [], [], seconds)[0]:
            try:
                shown += os.read(terminal, 65536)
            except OSError:
                break
    os.kill(shell, signal.SIGKILL)
    os.waitpid(shell, 0)
    os.close(terminal)
    return shown.decode(errors="replace")
