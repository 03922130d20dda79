"""Timed runs of a built program, for the scripts beside this file."""
import os
import resource
import signal
import subprocess
import tempfile
import time
from pathlib import Path
from typing import NamedTuple

TOP = Path(__file__).resolve().parent.parent
GNU_TIME = '/usr/bin/time'
BLOCK = 2 ** 20


class Run(NamedTuple):
    # milliseconds
    wall: float
    processor: float
    # kilobytes; 0 if the peak was not asked for, or if /usr/bin/time is missing
    peak: int
    # what is printed on standard output, or nothing if that was not asked for; and its number of bytes
    out: bytes
    size: int


def runnable(program, fault):
    """Returns the path `program`. Raises `OSError` with the text `fault` if it is no file that can be run."""
    if not program.is_file() or not os.access(program, os.X_OK):
        raise OSError(fault)
    return program


def program_of(name):
    """Returns the path of a built program. Raises `OSError` if it is not built."""
    return runnable(TOP / 'crates' / name / 'out' / name, 'the proved program is not built; run ./build first')


def run_count(default):
    """Returns the number of runs in the environment, or `default`."""
    return int(os.environ.get('RUNS', default))


def first_package(file):
    """Returns the id of the first package of a row file."""
    with open(file, encoding='utf-8') as lines:
        for line in lines:
            if line.startswith('package\t'):
                return line.rstrip('\n').split('\t')[1]
    raise ValueError(f'{file} has no package')


def processor_time():
    """Returns the seconds of user and system time that ended children have used."""
    used = resource.getrusage(resource.RUSAGE_CHILDREN)
    return used.ru_utime + used.ru_stime


def limited(seconds):
    """Returns a function for a child before its program starts: it has `seconds` of processor time, or no limit if that is None."""
    return None if seconds is None else lambda: resource.setrlimit(resource.RLIMIT_CPU, (seconds, seconds + 1))


def read_from(pipe, with_out):
    """Reads a pipe to its end. Returns its bytes, or none of them without `with_out`, and their number."""
    kept, size = [], 0
    for block in iter(lambda: pipe.read(BLOCK), b''):
        size += len(block)
        if with_out:
            kept.append(block)
    return b''.join(kept), size


def run_of(command, statuses=(0,), with_peak=True, with_out=True, limit=None):
    """Runs `command` once. Raises `ValueError` if its exit status is none of `statuses`.

    Returns None if the command is stopped after `limit` seconds of processor time. GNU time measures the peak, because Python's measure
    of a child contains the peak of Python itself.
    """
    with tempfile.TemporaryDirectory() as folder:
        counts, faults = Path(folder) / 'counts', Path(folder) / 'faults'
        front = [GNU_TIME, '-o', counts, '-f', '%M'] if with_peak and os.access(GNU_TIME, os.X_OK) else []
        begun, used = time.monotonic(), processor_time()
        with open(faults, 'wb') as errors, subprocess.Popen([*front, *command], stdout=subprocess.PIPE, stderr=errors, preexec_fn=limited(limit)) as run:
            out, size = read_from(run.stdout, with_out)
        passed, used = time.monotonic() - begun, processor_time() - used
        # (GNU time ends with 128 and the number of the signal)
        if limit is not None and run.returncode in (-signal.SIGXCPU, 128 + signal.SIGXCPU):
            return None
        if run.returncode not in statuses:
            raise ValueError(f'{" ".join(map(str, command[1:]))} ends with status {run.returncode}: {faults.read_text(errors="replace")}')
        peak = int(counts.read_text().splitlines()[-1]) if front else 0
    return Run(1000 * passed, 1000 * used, peak, out, size)
