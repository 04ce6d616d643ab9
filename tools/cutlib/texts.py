"""Runs of the built program on each beginning of a text, and with a read or a write that fails."""
import re
import subprocess
from pathlib import Path

from .reading import WORDS, is_but_for_empty_generics

FAILING = Path(__file__).with_name("failing.c")
REFUSAL = re.compile(r"refused at \d+: [^\n]+\n")
SECONDS = 60


def built_library(folder):
    """The preloaded library that makes calls fail, built in the folder."""
    path = Path(folder) / "failing.so"
    subprocess.run(["cc", "-shared", "-fPIC", "-o", path, FAILING], check=True)
    return path


def beginnings(text):
    """Each beginning of the text's bytes."""
    data = text.encode()
    return (data[:end] for end in range(len(data) + 1))


def ran(program, kind, data, environment=None):
    """The status of the program that prints the bytes as this kind, and its output and errors, as bytes."""
    done = subprocess.run([program, "print", WORDS[kind]], input=data, capture_output=True, timeout=SECONDS, env=environment)
    return done.returncode, done.stdout, done.stderr


def ended(program, kind, data):
    """The same, with the output as text."""
    status, output, faults = ran(program, kind, data)
    return status, output.decode(errors="replace"), faults.decode(errors="replace")


def verdict(found, wanted):
    """Compares how a run ended with how it should: `ok`, `refused`, `empty generics`, or the difference in words. Where no error message is
    expected, any refusal is right."""
    status, output, faults = found
    if status not in (0, 1) or status != wanted[0]:
        return f"status {status} in place of {wanted[0]}, and {output + faults!r}"
    is_reported = faults == wanted[2] if wanted[2] is not None else REFUSAL.fullmatch(faults)
    if not is_reported:
        return f"{faults!r} in place of {wanted[2]!r}"
    if output == wanted[1]:
        return "refused" if status else "ok"
    return "empty generics" if is_but_for_empty_generics(output, wanted[1]) else f"{output!r} in place of {wanted[1]!r}"


def failures(program, library, kind, data, call):
    """Runs the program with the first, the second and each further `read` or `write` failing, until a run meets no failure. Returns the number
    of failures, and what was wrong, if anything. Bytes are compared, as a character may be cut."""
    whole = ran(program, kind, data)
    for number in range(1, len(data) + len(whole[1]) + 3):
        status, output, faults = ran(program, kind, data, {"LD_PRELOAD": str(library), "FAILS": f"{call} {number}"})
        if faults != f"{call} failed\n".encode():
            met = number - 1
            return met, "" if met and (status, output, faults) == whole else f"with {call} {number} failing {(status, output, faults)!r}"
        # the output is a prefix of the whole output, and empty until all is read
        if status != 1 or not whole[1].startswith(output) or (call == "read" and output):
            return number, f"with {call} {number} failing status {status}, and {output!r}"
    return number, f"{call} fails without an end"
