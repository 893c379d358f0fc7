"""A machine for benches/package: systemd is its first process, and all that is changed there is gone behind it.

Its files are those of this machine below a layer in memory; its processes, devices of terminals, network and groups of
control are its own. It needs root, and a kernel with overlays and control groups of version 2.
"""

from __future__ import annotations

import contextlib
import os
import pathlib
import signal
import subprocess
import sys
from typing import Iterator, Optional

from waiting import wait_for

# What stands before systemd, in name spaces of its own. $1 is a folder for the layer.
FIRST = """
set -e
mount --make-rprivate /
mount -t tmpfs layer "$1"
mkdir "$1/changed" "$1/work" "$1/root"
mount -t overlay overlay -o "lowerdir=/,upperdir=$1/changed,workdir=$1/work" "$1/root"
cd "$1/root"
mount -t proc proc proc
mount -t sysfs -o ro sysfs sys
mount -t cgroup2 cgroup2 sys/fs/cgroup
mount -t tmpfs -o mode=755 run run
mount -t tmpfs tmp tmp
mount -t tmpfs -o mode=755 dev dev
for device in null zero full random urandom tty; do
    touch "dev/$device"
    mount --bind "/dev/$device" "dev/$device"
done
mkdir dev/pts dev/shm
mount -t devpts -o newinstance,ptmxmode=0666,mode=620,gid=5 devpts dev/pts
mount -t tmpfs shm dev/shm
ln -s pts/ptmx dev/ptmx
ln -s /proc/self/fd dev/fd
ip link set lo up || ifconfig lo up
exec env -i container=bench PATH=/usr/sbin:/usr/bin:/sbin:/bin chroot . /lib/systemd/systemd --system --log-target=journal \
    --show-status=0 systemd.unified_cgroup_hierarchy=1 systemd.unit=basic.target
"""
SPACES = ("--mount", "--pid", "--uts", "--ipc", "--net", "--cgroup")


def control_groups() -> Optional[pathlib.Path]:
    """Where control groups of version 2 are, or None."""
    for line in pathlib.Path("/proc/self/mountinfo").read_text().splitlines():
        mounted, _, kind = line.partition(" - ")
        if kind.startswith("cgroup2 "):
            return pathlib.Path(mounted.split()[4])
    return None


class Machine:
    """The machine, once it is there."""

    def __init__(self, first: int) -> None:
        self.first = first

    def call(self, *words: object, seconds: float = 600) -> subprocess.CompletedProcess[str]:
        """Runs a command in the machine, as root."""
        enter = ["nsenter", "--target", str(self.first), "--all", "--root", "--wd"]
        return subprocess.run(
            [*enter, *map(str, words)],
            text=True,
            timeout=seconds,
            stdin=subprocess.DEVNULL,
            stdout=subprocess.PIPE,
            stderr=subprocess.STDOUT,
        )

    def root(self, path: str) -> pathlib.Path:
        """A file of the machine, as this one sees it. A link there may lead elsewhere."""
        return pathlib.Path(f"/proc/{self.first}/root{path}")

    def is_up(self) -> bool:
        return self.call("systemctl", "is-active", "basic.target").returncode == 0


def first_of(unshare: int) -> Optional[int]:
    """The first process of the machine, as this one sees it."""
    children = pathlib.Path(f"/proc/{unshare}/task/{unshare}/children").read_text().split()
    return int(children[0]) if children else None


@contextlib.contextmanager
def machine(folder: pathlib.Path) -> Iterator[Optional[Machine]]:
    """A machine, or None where this one lets none be made. It ends with the block."""
    groups = control_groups()
    if os.getuid() or groups is None:
        yield None
        return
    signal.signal(signal.SIGTERM, lambda *_: sys.exit(143))  # so that the machine ends with the bench
    group = groups / f"gushewa-{os.getpid()}"
    group.mkdir()
    (folder / "layer").mkdir()
    enter = f'echo $$ >"{group}/cgroup.procs" && exec unshare --fork --kill-child {" ".join(SPACES)} sh -c "$0" sh "$1"'
    process = subprocess.Popen(["sh", "-c", enter, FIRST, str(folder / "layer")], stdout=sys.stderr)
    try:
        yield made(process)
    finally:
        process.kill()
        process.wait()
        (group / "cgroup.kill").write_text("1")
        wait_for(lambda: "populated 0" in (group / "cgroup.events").read_text(), 10)
        for path, _folders, _files in os.walk(group, topdown=False):
            os.rmdir(path)


def made(process: subprocess.Popen[bytes]) -> Optional[Machine]:
    """The machine of a process, once systemd has started it."""
    if not wait_for(lambda: process.poll() is not None or first_of(process.pid), 10) or process.poll() is not None:
        return None
    it = Machine(first_of(process.pid) or 0)
    return it if wait_for(lambda: process.poll() is not None or it.is_up(), 30) and process.poll() is None else None
