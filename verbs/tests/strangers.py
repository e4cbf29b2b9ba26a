#!/usr/bin/env python3
"""Strangers at a listening identifier: strangers.py PORT SEED COUNT. Random octets, Requests that are cut off, Requests of any revision,
octet by octet, with noise behind them, and, once a Request is answered, frames of the right length with noise in them."""
import random
import socket
import struct
import sys

KINDS = 6
KEPT = 40


def request(private=b"", revision=2):
    body = struct.pack(">HH", 16, 16) + private if revision == 2 else private
    flags = 0x50 if revision == 2 else 0x40
    return b"MPA ID Req Frame" + bytes([flags, revision]) + struct.pack(">H", len(body)) + body


def frame(luck):
    """An FPDU with no CRC: RDMAP's opcodes at random, tagged or not, and noise."""
    length = luck.randrange(18, 400)
    ulpdu = bytes([luck.choice((0x41, 0xC1)), 0x40 | luck.randrange(16)]) + luck.randbytes(length - 2)
    fpdu = struct.pack(">H", length) + ulpdu
    return fpdu + bytes(-len(fpdu) % 4) + bytes(4)


def answered(stranger):
    try:
        return bool(stranger.recv(100))
    except TimeoutError:
        return False


def say(stranger, kind, luck):
    """Says what a stranger of this kind says. Returns whether it was answered."""
    if kind == 0:
        stranger.sendall(luck.randbytes(luck.randrange(1, 2000)))
    elif kind == 1:
        stranger.sendall(request()[: luck.randrange(1, 20)])
    elif kind == 2:
        stranger.sendall(request(luck.randbytes(luck.randrange(600))) + luck.randbytes(luck.randrange(3000)))
    elif kind == 3:
        stranger.sendall(request(revision=luck.randrange(256)))
    elif kind == 4:
        for octet in request(b"x" * 8):
            stranger.sendall(bytes([octet]))
    else:
        stranger.sendall(request(luck.randbytes(8)))
        was = answered(stranger)
        for _ in range(3):
            stranger.sendall(frame(luck))
        return was
    return False


def main(port, seed, count):
    luck = random.Random(seed)
    kept = []
    answers = 0
    for i in range(count):
        stranger = socket.create_connection(("127.0.0.1", port))
        stranger.settimeout(0.05)
        try:
            answers += say(stranger, i % KINDS, luck)
        except OSError:
            pass
        kept.append(stranger)
        if len(kept) > KEPT:
            kept.pop(luck.randrange(len(kept))).close()
    print(f"{count} strangers, {answers} of them answered")


if __name__ == "__main__":
    main(*map(int, sys.argv[1:]))
