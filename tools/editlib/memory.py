"""Checks that give way: they begin where memory is free for one, end where it gets short, and begin again later. What else runs on
the machine is then not ended for want of memory."""

import os
import signal
import subprocess
import tempfile
import time

# what has to be free before a check begins, and below what it ends, in bytes
ROOM, LEAST = 8_000_000_000, 2_500_000_000
# how long it is between two looks, in seconds
LOOK = 0.5


def available():
    """The free memory in bytes; as much as is needed where nothing tells."""
    try:
        with open("/proc/meminfo") as file:
            lines = dict(line.split(":", 1) for line in file)
        return 1024 * int(lines["MemAvailable"].split()[0])
    except (OSError, KeyError):
        return ROOM


def is_over(end):
    """Whether this time has come, if there is one."""
    return end is not None and time.monotonic() > end


def begun(command, folder, said, room, end):
    """The process, once there is room for it; none where its time is over before."""
    while available() < room and not is_over(end):
        time.sleep(LOOK)
    if is_over(end):
        return None
    # a group of its own, to be ended whole, but no session: Linux shares the processors out among sessions, whatever their niceness
    return subprocess.Popen(command, cwd=folder, stdout=said, stderr=subprocess.STDOUT, process_group=0)


def gave_way(process, least, end):
    """Waits for the process; true where it was ended for want of memory, or as its time was over."""
    while process.poll() is None:
        time.sleep(LOOK)
        if process.poll() is None and (available() < least or is_over(end)):
            os.killpg(process.pid, signal.SIGKILL)
            process.wait()
            return True
    return False


def run(command, folder, room=ROOM, least=LEAST, end=None):
    """The status of the command, run in this folder, and what it said; none where it hadn't ended at this time."""
    with open("/proc/meminfo") as file:
        total = 1024 * int(file.readline().split()[1])
    while not is_over(end):
        with tempfile.TemporaryFile("w+", errors="replace") as said:
            process = begun(command, folder, said, min(room, total // 2), end)
            if process is None:
                break
            try:
                if not gave_way(process, min(least, total // 8), end):
                    said.seek(0)
                    return process.returncode, said.read()
            finally:
                if process.poll() is None:
                    os.killpg(process.pid, signal.SIGKILL)
    return None
