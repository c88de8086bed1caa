"""Runs a program under limits, and tells what is wrong with what it answered."""

import os
import re
import resource
import signal
import subprocess
import tempfile
import time

MEBIBYTE = 1 << 20
END = re.compile(rb'end (?:exit (\d+)|signal (\d+) at 0x[0-9a-f]{8})\n((?:slice [^\n]*\n)*)\Z')
REFUSED = re.compile(rb'superpin: (?:[1-9]|11) [^\n]+\n\Z')
SLICE = re.compile(rb'slice (\d+) (\d+) (\d+) (\d+) (\d+) (\d+) (\d+)\n')


class Limits:
    """So many seconds, and no limit on memory."""

    def __init__(self, seconds):
        self.seconds = seconds
        self.address_space = None


class Run:
    """What a run left: its status, negative where a signal ended it; the two outputs; the seconds and the mebibytes that it took."""

    def __init__(self, status, out, err, seconds, memory):
        self.status = status
        self.out = out
        self.err = err
        self.seconds = seconds
        self.memory = memory

    def report(self):
        """The standard error without the lines of slices behind the end line."""
        found = END.search(self.err)
        return self.err[:found.start(3)] if found else self.err


def limit_to(address_space):
    """What the child does before it becomes the program: no core file, no address space beyond the limit, where there is one."""
    def limit():
        resource.setrlimit(resource.RLIMIT_CORE, (0, 0))
        if address_space:
            resource.setrlimit(resource.RLIMIT_AS, (address_space, address_space))
    return limit


def await_end(child, seconds):
    """Waits for a child, and ends it where it takes more seconds. Its status, and its resources."""
    until = time.monotonic() + seconds
    pause = 0.0005
    while True:
        done, status, used = os.wait4(child.pid, os.WNOHANG)
        if done:
            child.returncode = os.waitstatus_to_exitcode(status)
            return child.returncode, used
        if time.monotonic() > until:
            os.kill(child.pid, signal.SIGKILL)
            _, status, used = os.wait4(child.pid, 0)
            child.returncode = -signal.SIGKILL
            return None, used
        time.sleep(pause)
        pause = min(pause * 1.5, 0.02)


def run(words, folder, limits, given, out_name=None, environment=None):
    """Runs the words in the folder, with these bytes, or this open file, as its input, and with these variables or the usual ones. The
    standard output goes to the file that is named, where one is. The status is None where the time was over."""
    with tempfile.TemporaryFile() as source, tempfile.TemporaryFile() as err, \
            (open(out_name, 'wb') if out_name else tempfile.TemporaryFile()) as out:
        if isinstance(given, bytes):
            source.write(given)
            source.seek(0)
        began = time.monotonic()
        child = subprocess.Popen(words, cwd=folder, stdin=source if isinstance(given, bytes) else given, stdout=out, stderr=err,
                                 env=environment, preexec_fn=limit_to(limits.address_space))
        status, used = await_end(child, limits.seconds)
        took = time.monotonic() - began
        err.seek(0)
        if not out_name:
            out.seek(0)
        return Run(status, b'' if out_name else out.read(), err.read(), took, used.ru_maxrss / 1024)


def wrong_alone(done, most_memory, is_run):
    """What is wrong with a run by itself, or None. What is no run of a program has no report."""
    if done.status is None:
        return f'it had not ended after {done.seconds:.0f} seconds'
    if done.status < 0:
        return f'signal {-done.status} ended it'
    if done.memory > most_memory:
        return f'it took {done.memory:.0f} mebibytes, more than {most_memory:.0f}'
    end = END.search(done.err) if is_run else None
    if end is None:
        if done.status == 125 and REFUSED.search(done.err) or not is_run and done.status == 0 and not done.err:
            return None
        return 'there is neither an end line nor the line of a refusal'
    status = int(end[1]) if end[1] else 128 + int(end[2])
    if done.status != status:
        return f'its status is {done.status}, and its end line tells {status}'
    return None


def wrong_slices(done, steps):
    """What is wrong with the lines of slices of a run of so many instructions, or None."""
    end = END.search(done.err)
    if end is None or not end[3]:
        return None
    lines = [[int(number) for number in line] for line in SLICE.findall(end[3])]
    if b''.join(b'slice %d %d %d %d %d %d %d\n' % tuple(line) for line in lines) != end[3]:
        return 'a line of a slice has another form'
    if [line[0] for line in lines] != list(range(len(lines))):
        return 'the slices are not numbered from 0'
    if any(line[6] != 1 or sorted(line[3:], reverse=True) != line[3:] for line in lines[:-1]) or any(lines[-1][3:]):
        return 'the counts of matches are none that a slice has'
    if steps is not None and sum(line[1] for line in lines) != steps:
        return f'the slices have {sum(line[1] for line in lines)} instructions, and the run {steps}'
    return None


def is_without_memory(whole, done):
    """Whether a run was refused for want of memory, and wrote a beginning of what the whole run writes."""
    line = b'superpin: 11 no memory\n'
    return (done.status == 125 and done.err.endswith(line) and whole.out.startswith(done.out)
            and whole.err.startswith(done.err[:-len(line)]))


def differs(serial, other):
    """In what the run differs from the serial one, or None."""
    if serial.status != other.status:
        return f'its status is {other.status}, and that of the serial run {serial.status}'
    if serial.out != other.out:
        return 'its standard output is another than that of the serial run'
    if serial.report() != other.report():
        return 'its standard error is another than that of the serial run'
    return None
