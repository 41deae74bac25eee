"""The program that rt try builds, taken while it runs, since rt try removes it at its end."""
import contextlib
import os
import subprocess
import sys
import tempfile
import time


def is_program(path):
    """Whether the file is a program, and no object file."""
    try:
        with open(path, "rb") as file:
            head = file.read(18)
    except OSError:
        return False
    return head[:4] == b"\x7fELF" and head[16] in (2, 3)


def program_in(folder):
    """The path of a program below the folder, if one is there."""
    for where, _, names in os.walk(folder):
        for name in names:
            if is_program(os.path.join(where, name)):
                return os.path.join(where, name)
    return None


def tried_program(words, crate, text):
    """The bytes of the program that rt try with these words builds in the folder of a crate.

    The program must run for a while on this text: it is looked for ten times a second.
    """
    with tempfile.TemporaryDirectory() as folder:
        kept = os.path.join(folder, "kept")
        room = os.path.join(folder, "room")
        os.mkdir(room)
        with tempfile.TemporaryFile() as source:
            source.write(text.encode())
            source.seek(0)
            quiet = {"stdout": subprocess.DEVNULL, "stderr": subprocess.DEVNULL}
            env = dict(os.environ, TMPDIR=room)
            child = subprocess.Popen(["rt", "try"] + words, cwd=crate, stdin=source, env=env, **quiet)
        while child.poll() is None:
            found = None if os.path.exists(kept) else program_in(room)
            if found:
                # The linker may still be writing it, and rt try removes its own name of the file.
                with contextlib.suppress(FileNotFoundError):
                    os.link(found, kept)
            time.sleep(0.1)
        if not os.path.exists(kept):
            sys.exit("rt try left no program")
        with open(kept, "rb") as file:
            return file.read()
