#!/usr/bin/env python3
"""A bad way between UDP peers, for measurements: what comes at a port goes on to a peer, and its answers go back, each datagram lost,
repeated or put off by the throw of a die with a fixed seed, and each after half a round trip.

Usage: relay.py LISTEN_PORT PEER_PORT LOSS REPEAT REORDER ROUND_TRIP_MS SEED
LOSS, REPEAT and REORDER are chances from 0 to 1, of each way. All peers are at 127.0.0.1. Whoever sends to the port has a socket of its own
towards the peer, so that the peer tells them apart. What is put off comes a tenth of the round trip, or a millisecond, later.
"""
import heapq
import random
import selectors
import socket
import sys
import time


def main():
    listen, peer = int(sys.argv[1]), int(sys.argv[2])
    loss, repeat, reorder = (float(it) for it in sys.argv[3:6])
    half = float(sys.argv[6]) / 2000
    dice = random.Random(int(sys.argv[7]))
    ready = selectors.DefaultSelector()
    front = opened(("127.0.0.1", listen))
    ready.register(front, selectors.EVENT_READ, None)
    behind, waiting, count = {}, [], 0
    while True:
        limit = max(0, waiting[0][0] - time.monotonic()) if waiting else None
        for key, _ in ready.select(limit):
            for _ in range(64):
                try:
                    bytes, sender = key.fileobj.recvfrom(65536)
                except (BlockingIOError, ConnectionRefusedError):
                    break
                if key.data is None:
                    if sender not in behind:
                        behind[sender] = opened(("127.0.0.1", 0))
                        ready.register(behind[sender], selectors.EVENT_READ, sender)
                    way, to = behind[sender], ("127.0.0.1", peer)
                else:
                    way, to = front, key.data
                for _ in range(2 if dice.random() < repeat else 1):
                    if dice.random() < loss:
                        continue
                    late = max(half / 5, 0.001) if dice.random() < reorder else 0
                    count += 1
                    heapq.heappush(waiting, (time.monotonic() + half + late, count, way, to, bytes))
        now = time.monotonic()
        while waiting and waiting[0][0] <= now:
            _, _, way, to, bytes = heapq.heappop(waiting)
            try:
                way.sendto(bytes, to)
            except (BlockingIOError, ConnectionRefusedError):
                pass


def opened(address):
    made = socket.socket(socket.AF_INET, socket.SOCK_DGRAM)
    made.setsockopt(socket.SOL_SOCKET, socket.SO_RCVBUF, 1 << 24)
    made.bind(address)
    made.setblocking(False)
    return made


main()
