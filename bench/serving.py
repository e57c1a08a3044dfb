"""Measures what the daemon does in a second of processor time, beside a Redis server, over loopback."""
from __future__ import annotations

import multiprocessing
import os
import shutil
import socket
import subprocess
import sys
import time
from pathlib import Path

import workloads

sys.path.insert(0, str(Path(__file__).resolve().parent.parent / "tests"))
from daemon import Daemon  # noqa: E402

# How many clients there are at a time, and how many lines each has under way.
SHAPES = ((1, 1), (4, 1), (16, 1), (1, 64), (4, 64), (16, 64))
SECONDS = 1.0
IDLE_SECONDS = 10
LINE = workloads.line_of("edit", copy=1)
# The same amount of work: a number goes up by one.
INCREMENT = b"*2\r\n$4\r\nINCR\r\n$1\r\nx\r\n"


def speak(port, line, window, begin, end, counts):
    """Sends so many lines at a time and waits for their answers, and puts the number of answers."""
    count = 0
    with socket.create_connection(("127.0.0.1", port)) as it:
        it.setsockopt(socket.IPPROTO_TCP, socket.TCP_NODELAY, 1)
        begin.wait()
        while not end.is_set():
            it.sendall(line * window)
            left = window
            while left:
                left -= it.recv(65536).count(b"\n")
            count += window
    counts.put(count)


def processor_time(process):
    """The seconds of processor time that a process has used."""
    fields = Path(f"/proc/{process}/stat").read_text().rpartition(")")[2].split()
    return (int(fields[11]) + int(fields[12])) / os.sysconf("SC_CLK_TCK")


def rate(process, port, line, clients, window):
    """How many lines a server answers in a second of its processor time, and in a second."""
    begin, end, counts = multiprocessing.Barrier(clients + 1), multiprocessing.Event(), multiprocessing.Queue()
    speakers = [multiprocessing.Process(target=speak, args=(port, line, window, begin, end, counts)) for _ in range(clients)]
    for it in speakers:
        it.start()
    begin.wait()
    before, since = processor_time(process), time.monotonic()
    time.sleep(SECONDS)
    used, passed = processor_time(process) - before, time.monotonic() - since
    end.set()
    total = sum(counts.get() for _ in speakers)
    for it in speakers:
        it.join()
    return total / max(used, 0.01), total / passed


def best_rates(options, process, port, line):
    """The best of each shape's rates."""
    return {it: max(rate(process, port, line, *it) for _ in range(options.rounds)) for it in SHAPES}


def of_daemon(options, program):
    with Daemon(program) as daemon:
        daemon.ask("laptop", "register", device="laptop", path="file-1.txt")
        rates = best_rates(options, daemon.run.pid, daemon.port, LINE)
        time.sleep(0.5)
        before = processor_time(daemon.run.pid)
        time.sleep(IDLE_SECONDS)
        print(f"{program}, idle for {IDLE_SECONDS} seconds: {processor_time(daemon.run.pid) - before:.2f} of processor time")
        return rates


def free_port():
    with socket.socket() as it:
        it.bind(("127.0.0.1", 0))
        return it.getsockname()[1]


def of_redis(options):
    """The rates of a Redis server of its own; none where there isn't one."""
    server = shutil.which("redis-server")
    if not server:
        return {}
    port = free_port()
    words = [server, "--port", str(port), "--bind", "127.0.0.1", "--save", "", "--appendonly", "no", "--daemonize", "no"]
    with subprocess.Popen(words, stdout=subprocess.DEVNULL) as run:
        try:
            for _ in range(100):
                time.sleep(0.05)
                with socket.socket() as it:
                    if it.connect_ex(("127.0.0.1", port)) == 0:
                        break
            return best_rates(options, run.pid, port, INCREMENT)
        finally:
            run.terminate()


def print_rates(options, table_of):
    ours = of_daemon(options, options.program)
    others = of_daemon(options, options.beside) if options.beside else {}
    redis = of_redis(options)
    table = table_of("`serve`, edits", "a second", "of other", "of Redis", "by clock")
    for it in SHAPES:
        used, by_clock = ours[it]
        ratios = [f"{used / theirs[it][0]:.2f}" if it in theirs else "-" for theirs in (others, redis)]
        table.row(f"{it[0]} clients, {it[1]} lines under way each", f"{used:,.0f}", *ratios, f"{by_clock:,.0f}")
