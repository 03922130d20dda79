"""Runs programs at pseudo-terminals."""
import fcntl
import os
import signal
import struct
import subprocess
import termios
import threading


class Terminal:
    """A pseudo-terminal of `columns` columns. It changes no byte that is written to it, and doesn't show what is typed."""

    def __init__(self, columns=80):
        # `far` is the program's end.
        self.near, self.far = os.openpty()
        modes = termios.tcgetattr(self.far)
        modes[1] &= ~termios.OPOST
        modes[3] &= ~termios.ECHO
        termios.tcsetattr(self.far, termios.TCSANOW, modes)
        fcntl.ioctl(self.far, termios.TIOCSWINSZ, struct.pack('HHHH', 24, columns, 0, 0))
        self.written = bytearray()
        self.reader = threading.Thread(target=self.read, daemon=True)
        self.reader.start()

    def read(self):
        try:
            while part := os.read(self.near, 1 << 16):
                self.written += part
        except OSError:
            # (the far end is closed)
            pass

    def typed(self, text):
        os.write(self.near, text)

    def started(self, words, **how):
        """Starts a program with its standard input, output and error here, unless `how` names others. If its input is here, this is its
        controlling terminal."""
        ends = {'stdin': self.far, 'stdout': self.far, 'stderr': self.far, **how}

        def prepared():
            # A shell that runs the tests in the background ignores interrupts, and its programs would inherit that.
            signal.signal(signal.SIGINT, signal.SIG_DFL)
            if ends['stdin'] == self.far:
                fcntl.ioctl(0, termios.TIOCSCTTY, 0)

        return subprocess.Popen(words, start_new_session=True, preexec_fn=prepared, **ends)

    def ended(self):
        """Closes the terminal after its programs have ended, and returns what they wrote to it."""
        os.close(self.far)
        self.reader.join(timeout=60)
        os.close(self.near)
        return bytes(self.written)
