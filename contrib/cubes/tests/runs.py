"""Runs by GNU parallel end with the right answer or with none, also where processes are killed, and README.md is right."""
import os
import shlex
import signal
import subprocess
import sys
import tempfile
import time
from pathlib import Path

from faults import HERE, PIGEONS, change, expect

VERIFIED = (20, "cores cover all assignments", "s UNSATISFIABLE")
MISSED = "no core refutes the cube -1 -2 -3 4 12 0"


def workers(folder):
    """The processes of `work` in a folder that have a session, by their numbers."""
    for process in filter(str.isdigit, os.listdir("/proc")):
        try:
            words = Path(f"/proc/{process}/cmdline").read_bytes().split(b"\0")
            if b"./work" in words[1:4] and os.readlink(f"/proc/{process}/cwd") == str(folder):
                if Path(f"/proc/{process}/task/{process}/children").read_text():
                    yield int(process)
        except OSError:
            pass


def kill_workers(folder, count):
    """Runs a formula, and kills the first processes that are met. Returns how many, the status, and what was printed."""
    words = [HERE / "run", PIGEONS, "--dir", folder, "--jobs", "2", "--cubes", "16"]
    running = subprocess.Popen(words, stdout=subprocess.PIPE, stderr=subprocess.STDOUT, text=True)
    killed = set()
    while len(killed) < count and running.poll() is None:
        for process in set(workers(folder)) - killed:
            os.kill(process, signal.SIGKILL)
            killed.add(process)
        time.sleep(0.001)
    printed = running.communicate()[0]
    return len(killed), running.returncode, printed


def try_kills(folder):
    """What is killed is done again; where all is killed there is no answer, until the same command goes on."""
    killed, status, printed = kill_workers(folder / "killed", 3)
    assert killed >= 3 and status == 20 and "s UNSATISFIABLE" in printed, (killed, status, printed)
    expect((0, "s VERIFIED"), ("check", PIGEONS, folder / "killed"))
    killed, status, printed = kill_workers(folder / "all killed", 1000)
    assert killed >= 12 and status == 0 and "came back" in printed and "s UNKNOWN" in printed, (killed, status, printed)
    expect(VERIFIED, ("run", PIGEONS, "--dir", folder / "all killed", "--jobs", "2"))


def try_stop(folder):
    """A run that is ended in the middle ends its processes, and goes on by the same command."""
    words = [HERE / "run", PIGEONS, "--dir", folder / "stopped", "--jobs", "2", "--cubes", "16"]
    running = subprocess.Popen(words, stdout=subprocess.PIPE, text=True)
    while not list(workers(folder / "stopped")):
        assert running.poll() is None
    running.terminate()
    assert "s UN" not in running.communicate()[0] and running.returncode == 2
    assert not list(workers(folder / "stopped"))
    expect((1, MISSED.split(" -")[0], "s NOT VERIFIED"), ("check", PIGEONS, folder / "stopped"))
    expect(VERIFIED, ("run", PIGEONS, "--dir", folder / "stopped", "--jobs", "2"))


def try_limits(folder):
    """Cubes that take too long are split, a disk that is full is told, and a cube that is left out of the list is missed."""
    expect(VERIFIED, ("run", PIGEONS, "--dir", folder / "short", "--jobs", "2", "--cubes", "1", "--seconds", "0"))
    full = folder / "full"
    full.mkdir()
    parts = [full / f"{number:06}.marked.part" for number in range(1, 5)]
    for part in parts:
        # The first try of a batch writes to this and removes it, and the second has a new file.
        part.symlink_to("/dev/full")
    expect(VERIFIED, ("run", PIGEONS, "--dir", full, "--jobs", "2", "--cubes", "16"))
    assert not any(map(os.path.lexists, parts))
    change(full / "cubes", rb"^a -1 -2 -3 4 12 0\n", b"")
    (full / "000002.marked").unlink()
    expect((0, MISSED, "s UNKNOWN"), ("run", PIGEONS, "--dir", full, "--jobs", "2"))
    expect((0, "do not cover", "s UNKNOWN"), ("run", PIGEONS, "--dir", full, "--jobs", "2", "--unchecked"))
    # A check that comes to no end leaves the model where it is.
    (full / "model").mkdir()
    expect((2, "check ended with status 2"), ("run", PIGEONS, "--dir", full, "--jobs", "2"))
    assert (full / "model").exists()
    expect((2, "invalid positive value"), ("run", PIGEONS, "--dir", full, "--batch", "0"))
    expect((2, "/dev/null has no cube"), ("run", PIGEONS, "--dir", folder / "none", "--cubes", "/dev/null"))
    expect((2, "/dev/null has no host"), ("run", PIGEONS, "--dir", folder / "none", "--hosts", "/dev/null"))


def try_document(folder):
    """The commands of README.md print what stands below them."""
    folder.mkdir()
    for path in HERE.iterdir():
        (folder / path.name).symlink_to(path)
    lines = (HERE / "README.md").read_text().split("\n")
    start = next(number for number, line in enumerate(lines) if line.startswith("    $ ./"))
    stop = next(number for number, line in enumerate(lines) if number > start and not line.startswith("    "))
    wanted = [line.removeprefix("    ") for line in lines[start:stop]]
    script = "".join(f"echo {shlex.quote(line)}\n{line[2:]}\n" for line in wanted if line.startswith("$ "))
    ran = subprocess.run(["bash", "-c", script], cwd=folder, stdout=subprocess.PIPE, stderr=subprocess.STDOUT, text=True)
    if ran.stdout.splitlines() != wanted:
        sys.exit(f"contrib/cubes: the commands of README.md print\n{ran.stdout}")


def main():
    with tempfile.TemporaryDirectory() as name:
        folder = Path(name).resolve()
        try_kills(folder)
        try_stop(folder)
        try_limits(folder)
        try_document(folder / "document")
    print("contrib/cubes: run passed")


if __name__ == "__main__":
    main()
