#!/usr/bin/env python3
"""Has QEMU migrate a guest over rdma:, from one process to another over loopback: migrate.py LIBRARY PORT. The guest is empty: it runs the
firmware. The status is 0 if the migration completes and the guest runs on."""
import os
import socket
import subprocess
import sys
import tempfile
import time

WORDS = "qemu-system-x86_64 -accel tcg -m 64 -nodefaults -display none -machine pc,hpet=off".split()
TURNS = 60


class Monitor:
    """QEMU's human monitor, at a socket."""

    def __init__(self, path):
        self.socket = socket.socket(socket.AF_UNIX)
        self.socket.settimeout(10)
        for _ in range(TURNS):
            try:
                self.socket.connect(path)
                break
            except OSError:
                time.sleep(0.25)
        self.said()

    def said(self):
        text = b""
        while not text.endswith(b"(qemu) "):
            text += self.socket.recv(65536)
        return text.decode(errors="replace")

    def ask(self, command):
        self.socket.sendall(command.encode() + b"\n")
        return self.said()


def migrated(source, port):
    source.ask("migrate_set_parameter max-bandwidth 10G")
    source.ask(f"migrate -d rdma:127.0.0.1:{port}")
    for _ in range(TURNS):
        told = source.ask("info migrate")
        if "Migration status: completed" in told:
            return True
        if "Migration status: failed" in told:
            break
        time.sleep(1)
    print(told)
    return False


def main(library, port):
    over = {**os.environ, "LD_PRELOAD": library}
    with tempfile.TemporaryDirectory() as folder:
        paths = [f"{folder}/source", f"{folder}/sink"]
        ends = []
        for path, more in zip(paths, ([], ["-incoming", f"rdma:127.0.0.1:{port}"])):
            ends.append(subprocess.Popen([*WORDS, "-monitor", f"unix:{path},server=on,wait=off", *more], env=over,
                                         stdin=subprocess.DEVNULL))
        try:
            source, sink = map(Monitor, paths)
            done = migrated(source, port) and "running" in sink.ask("info status")
        finally:
            for end in ends:
                end.kill()
                end.wait()
    print("completed, and the guest runs on" if done else "not migrated")
    return 0 if done else 1


if __name__ == "__main__":
    sys.exit(main(sys.argv[1], int(sys.argv[2])))
