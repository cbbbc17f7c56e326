#!/usr/bin/env python3
"""Measures `needs` over the folders of a Debian system: with processes of this machine, and on a Dask cluster on this machine.

    bench/needs.py ROOT [LIBRARY]

ROOT is the folder of a Debian system, for example made by

    mmdebstrap --variant=apt --include=gdb,openssl,python3 bookworm ROOT

The files in ROOT/usr/bin and ROOT/usr/lib are read with 1, 2 and 4 processes, and by a scheduler with 1, 2 and 4 workers of one thread each
(COUNTS="1 2 4" names other numbers). LIBRARY is the shared library, by default capi/out/libfeddurzai.so. The script prints a table: wall-clock seconds, how
many times faster than one process, and processor seconds. It ends with status 1 if the rows of two runs differ. The start of the scheduler and its workers is
not measured; that of the command is. The load of the machine (1 minute) stands in front of each run.

Required: pyelftools, and dask.distributed (Debian: python3-pyelftools python3-distributed), for the python3 that runs the script. With PAGE=FILE in the
environment the page of the first run is written there, and with CSV=FILE its rows.
"""
import os
import resource
import signal
import socket
import subprocess
import sys
import tempfile
import time

TOP = os.path.realpath(f"{os.path.dirname(os.path.realpath(__file__))}/..")
COUNTS = [int(it) for it in (os.environ.get("COUNTS") or "1 2 4").split()]


def used(children):
    """The processor seconds of some processes and of what they have waited for, from /proc."""
    ticks = 0
    for child in children:
        with open(f"/proc/{child}/stat", encoding="ascii") as file:
            fields = file.read().rpartition(")")[2].split()
        ticks += sum(int(it) for it in fields[11:15])
    return ticks / os.sysconf("SC_CLK_TCK")


def below(process):
    """A process and all processes below it."""
    found = [process]
    for one in found:
        for task in os.listdir(f"/proc/{one}/task"):
            with open(f"/proc/{one}/task/{task}/children", encoding="ascii") as file:
                found += [int(it) for it in file.read().split()]
    return found


def run(words, environment):
    """Runs the command. Its output, its wall-clock seconds, and the processor seconds of it and its processes."""
    before = resource.getrusage(resource.RUSAGE_CHILDREN)
    start = time.monotonic()
    done = subprocess.run([sys.executable, "-m", "feddurzai", "needs", "--csv", *words], env=environment, stdout=subprocess.PIPE, check=True)
    seconds = time.monotonic() - start
    after = resource.getrusage(resource.RUSAGE_CHILDREN)
    return done.stdout, seconds, after.ru_utime + after.ru_stime - before.ru_utime - before.ru_stime


class Cluster:
    """A scheduler and some workers on this machine."""

    def __init__(self, count, environment, folder):
        with socket.socket() as free:
            free.bind(("127.0.0.1", 0))
            port = free.getsockname()[1]
        self.address = f"tcp://127.0.0.1:{port}"
        self.folder, self.environment, self.started = folder, environment, []
        self.start("dask_scheduler", "--host", "127.0.0.1", "--port", str(port), "--no-dashboard", "--dashboard-address", ":0")
        for _ in range(count):
            self.start("dask_worker", self.address, "--nthreads", "1", "--no-nanny", "--no-dashboard", "--local-directory", folder)
        import distributed

        with distributed.Client(self.address, timeout=60) as client:
            client.wait_for_workers(count, timeout=60)

    def start(self, module, *words):
        with open(os.path.join(self.folder, "cluster.log"), "ab") as log:
            program = f"from distributed.cli.{module} import main; main()"
            self.started.append(subprocess.Popen([sys.executable, "-c", program, *words], env=self.environment, stdout=log, stderr=log))

    def processes(self):
        return [it for one in self.started for it in below(one.pid)]

    def stop(self):
        for one in reversed(self.started):
            one.send_signal(signal.SIGINT)
        for one in self.started:
            try:
                one.wait(20)
            except subprocess.TimeoutExpired:
                one.kill()
                one.wait()


def main():
    if len(sys.argv) not in (2, 3) or sys.argv[1] == "--help":
        print(__doc__)
        sys.exit(sys.argv[1:] != ["--help"])
    root = os.path.abspath(sys.argv[1])
    library = os.path.abspath(sys.argv[2] if len(sys.argv) == 3 else f"{TOP}/capi/out/libfeddurzai.so")
    environment = {**os.environ, "PYTHONPATH": f"{TOP}/capi/python", "FEDDURZAI_LIBRARY": library, "PYTHONDONTWRITEBYTECODE": "1"}
    paths = [f"{root}/usr/bin", f"{root}/usr/lib"]
    first, table = None, []

    def take(name, words, cluster=None):
        nonlocal first
        load = os.getloadavg()[0]
        before = used(cluster.processes()) if cluster else 0
        rows, seconds, processor = run([*words, *paths], environment)
        if cluster:
            processor += used(cluster.processes()) - before
        if first is None:
            first = rows, seconds
        table.append(f"| {name} | {seconds:.1f} | {first[1] / seconds:.2f} | {processor:.1f} | {load:.1f} |")
        print(table[-1], flush=True)
        if rows != first[0]:
            sys.exit(f"needs.py: the rows of {name} differ from those of the first run")

    print("| Run | Seconds | Times as fast | Processor seconds | Load before |\n|---|---|---|---|---|", flush=True)
    for count in COUNTS:
        take("1 process" if count == 1 else f"{count} processes", ["--jobs", str(count)])
    for count in COUNTS:
        with tempfile.TemporaryDirectory() as folder:
            cluster = Cluster(count, environment, folder)
            try:
                take(f"scheduler, {count} worker{'s' * (count > 1)}", ["--scheduler", cluster.address], cluster)
            finally:
                cluster.stop()
    lines = first[0].decode().splitlines()[1:]
    print(f"\n{len(lines)} rows, the same in each run; processors: {os.cpu_count()}")
    if os.environ.get("CSV"):
        with open(os.environ["CSV"], "wb") as file:
            file.write(first[0])
    if os.environ.get("PAGE"):
        subprocess.run([sys.executable, "-m", "feddurzai", "needs", "--jobs", str(max(COUNTS)), "--page", os.environ["PAGE"], *paths], env=environment, check=True)


main()
