#!/usr/bin/env python3
"""Opens one session of the SAM interface of a router on 127.0.0.1, and keeps it open for some seconds: session.py PORT."""
import socket
import sys
import time

PATIENCE = 3.0  # seconds for an answer: a session without tunnels gets none
START = 30.0  # seconds until the router has to listen
KEPT = 10.0  # seconds that the session stays open
ASKED = (b"HELLO VERSION MIN=3.0 MAX=3.1\n", b"SESSION CREATE STYLE=STREAM ID=one DESTINATION=TRANSIENT\n")


def connection(port: int) -> socket.socket:
    begin = time.monotonic()
    while True:
        try:
            return socket.create_connection(("127.0.0.1", port), 1)
        except OSError:
            if time.monotonic() - begin > START:
                raise
            time.sleep(0.2)


def main() -> None:
    with connection(int(sys.argv[1])) as session:
        session.settimeout(PATIENCE)
        for line in ASKED:
            session.sendall(line)
            try:
                session.recv(200)
            except OSError:
                pass
        time.sleep(KEPT)


if __name__ == "__main__":
    main()
