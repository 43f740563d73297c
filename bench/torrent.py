#!/usr/bin/env python3
"""How fast libtorrent moves a content over loopback, to compare a fetch with: one seeder and one downloader, two processes.

Usage: bench/torrent.py [MEBIBYTES [tcp|utp [PIECE [VIA]]]]; 64, tcp and 16384 bytes unless given. VIA is the port that the downloader names
in place of the seeder's, 17201: that of a relay (bench/relay.py VIA 17201 ..), for uTP. Wants Debian's python3-libtorrent (so
/usr/bin/python3). Prints megabytes a second from the downloader's connecting to its last piece, and the processor seconds of
both. TMPDIR names where the files lie.
"""
import os
import sys
import tempfile
import time

import libtorrent

PORT = 17201


def settings(port, kind):
    is_tcp = kind == "tcp"
    return {
        "listen_interfaces": f"127.0.0.1:{port}",
        "enable_dht": False, "enable_lsd": False, "enable_upnp": False, "enable_natpmp": False,
        "enable_outgoing_tcp": is_tcp, "enable_incoming_tcp": is_tcp,
        "enable_outgoing_utp": not is_tcp, "enable_incoming_utp": not is_tcp,
        "allow_multiple_connections_per_ip": True,
        "send_socket_buffer_size": 4 << 20, "recv_socket_buffer_size": 4 << 20,
        "alert_mask": 0,
    }


def begin(info, folder, port, kind, seeds):
    session = libtorrent.session(settings(port, kind))
    parameters = libtorrent.add_torrent_params()
    parameters.ti = info
    parameters.save_path = folder
    if seeds:
        parameters.flags |= libtorrent.torrent_flags.seed_mode
    return session, session.add_torrent(parameters)


def main():
    size = (int(sys.argv[1]) if len(sys.argv) > 1 else 64) << 20
    kind = sys.argv[2] if len(sys.argv) > 2 else "tcp"
    piece = int(sys.argv[3]) if len(sys.argv) > 3 else 16384
    named = int(sys.argv[4]) if len(sys.argv) > 4 else PORT
    with tempfile.TemporaryDirectory() as folder:
        source, target = f"{folder}/source", f"{folder}/target"
        os.mkdir(source)
        os.mkdir(target)
        with open(f"{source}/content", "wb") as out:
            for _ in range(size >> 20):
                out.write(os.urandom(1 << 20))
        files = libtorrent.file_storage()
        libtorrent.add_files(files, f"{source}/content")
        made = libtorrent.create_torrent(files, piece)
        libtorrent.set_piece_hashes(made, source)
        info = libtorrent.torrent_info(made.generate())
        child = os.fork()
        if child == 0:
            kept = begin(info, source, PORT, kind, True)
            while kept:
                time.sleep(10)
        try:
            time.sleep(1)
            session, handle = begin(info, target, PORT + 1, kind, False)
            while handle.status().state == libtorrent.torrent_status.checking_files:
                time.sleep(0.01)
            begun = time.monotonic()
            handle.connect_peer(("127.0.0.1", named))
            while not handle.status().is_seeding and time.monotonic() < begun + 900:
                time.sleep(0.005)
            took = time.monotonic() - begun
            if not handle.status().is_seeding:
                sys.exit(f"{handle.status().progress:.0%} after {took:.0f} s")
            busy = os.times()
            with open(f"/proc/{child}/stat") as stat:
                fields = stat.read().rsplit(")", 1)[1].split()
            seeder = (int(fields[11]) + int(fields[12])) / os.sysconf("SC_CLK_TCK")
            print(f"{size} bytes by {kind}, pieces of {piece}: {size / 1e6 / took:.1f} MB/s, {took * 1000:.0f} ms; "
                  f"processor seconds: downloader {busy.user + busy.system:.1f} with the making, seeder {seeder:.1f}")
        finally:
            os.kill(child, 9)


main()
