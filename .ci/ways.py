"""The ways in which the bytes of a script and of its report come and go.

Each is called with the words of a program and the text, and returns the status and what the program wrote.
"""
import contextlib
import fcntl
import os
import resource
import signal
import socket
import struct
import subprocess
import tempfile
import time

ADDRESS_SPACE = 2 << 30
SECONDS = 120
PAGE = 4096
# The status of a run whose report could not be written: what was written is a front of it.
UNWRITTEN = 5


def start(words, source, sink):
    limits = ADDRESS_SPACE, ADDRESS_SPACE
    return subprocess.Popen(words, stdin=source, stdout=sink,
                            preexec_fn=lambda: resource.setrlimit(resource.RLIMIT_AS, limits))


def ended(child):
    """The status of a process that ends by itself."""
    try:
        return child.wait(SECONDS)
    finally:
        if child.returncode is None:
            child.kill()


def all_of(read):
    """What the function reads up to the end."""
    return b"".join(iter(read, b""))


def through_pipes(words, text):
    """Pipes with as many bytes at a time as there are."""
    with start(words, subprocess.PIPE, subprocess.PIPE) as child:
        try:
            output, _ = child.communicate(text, SECONDS)
        finally:
            if child.returncode is None:
                child.kill()
    return child.returncode, output


# Processes that wait, and are stopped

def come_to(child, sign):
    """Waits until the process has this state, as the system tells it: S where it waits in a call, T where it stands."""
    until = time.monotonic() + SECONDS
    while child.poll() is None and time.monotonic() < until:
        with open("/proc/%d/stat" % child.pid) as stat:
            if stat.read().rpartition(")")[2].split()[0] == sign:
                return
        time.sleep(0.0002)
    if child.poll() is not None:
        return
    child.kill()
    raise TimeoutError("the program does not come to state %s" % sign)


def stop_waiting(child, times):
    """So many times: the process, which waits in a call, is stopped and goes on."""
    for _ in range(times):
        come_to(child, "S")
        child.send_signal(signal.SIGSTOP)
        come_to(child, "T")
        child.send_signal(signal.SIGCONT)


# Sources other than a file

def given(give):
    """The way in which the function gives the bytes of a pipe, and the report goes into a file."""
    def way(words, text):
        source, end = os.pipe2(os.O_DIRECT | os.O_CLOEXEC)
        with tempfile.TemporaryFile() as sink:
            child = start(words, source, sink)
            os.close(source)
            give(child, end, text)
            os.close(end)
            status = ended(child)
            sink.seek(0)
            return status, sink.read()
    return way


def give_bytes(_, end, text):
    """Each read has 1 byte: of a pipe in packet mode a read takes what one write gave."""
    for at in range(len(text)):
        os.write(end, text[at:at + 1])


def give_to_stopped(child, end, text):
    """The program is stopped while it waits for each of the pieces."""
    for at in range(0, len(text), PAGE):
        stop_waiting(child, 3)
        os.write(end, text[at:at + PAGE])


by_bytes = given(give_bytes)
stopped_before_reads = given(give_to_stopped)


# Sinks other than a file

def taken(take):
    """The way in which the function takes the bytes of a pipe of one page, and the script comes from a file."""
    def way(words, text):
        end, sink = os.pipe2(os.O_CLOEXEC)
        fcntl.fcntl(sink, fcntl.F_SETPIPE_SZ, PAGE)
        child = from_file(words, text, sink)
        os.close(sink)
        output = take(child, end)
        os.close(end)
        return ended(child), output
    return way


def from_file(words, text, sink):
    """Starts the program on a file with the text."""
    with tempfile.TemporaryFile() as source:
        source.write(text)
        source.seek(0)
        return start(words, source, sink)


def take_bytes(_, end):
    return all_of(lambda: os.read(end, 1))


def take_of_stopped(child, end):
    """The program is stopped ten times while its write waits, of which a page was taken: it is then a short one."""
    output = b""
    for _ in range(10):
        stop_waiting(child, 1)
        output += os.read(end, PAGE)
    return output + all_of(lambda: os.read(end, PAGE))


to_bytes = taken(take_bytes)
stopped_in_writes = taken(take_of_stopped)


# Calls that end with EINTR: on Linux those of a socket with a time limit do, where the process is stopped and goes on

def limited_pair(option):
    """Two ends of a socket: of the first one this call has a time limit, far away."""
    program, own = socket.socketpair()
    program.setsockopt(socket.SOL_SOCKET, option, struct.pack("ll", 10 * SECONDS, 0))
    return program, own


def interrupted_reads(times):
    """The way in which the first read is interrupted so many times in a row."""
    def way(words, text):
        source, own = limited_pair(socket.SO_RCVTIMEO)
        with tempfile.TemporaryFile() as sink, source, own:
            child = start(words, source, sink)
            source.close()
            stop_waiting(child, times)
            # A program that has given up takes nothing.
            with contextlib.suppress(BrokenPipeError):
                own.sendall(text)
                own.shutdown(socket.SHUT_WR)
            status = ended(child)
            sink.seek(0)
            return status, sink.read()
    return way


def interrupted_writes(times):
    """The way in which the second write is interrupted so many times in a row; the first has become a short one."""
    def way(words, text):
        sink, own = limited_pair(socket.SO_SNDTIMEO)
        sink.setsockopt(socket.SOL_SOCKET, socket.SO_SNDBUF, PAGE)
        with sink, own:
            child = from_file(words, text, sink)
            sink.close()
            stop_waiting(child, 1 + times)
            output = all_of(lambda: own.recv(PAGE))
        return ended(child), output
    return way
