#!/usr/bin/env python3
"""Sends requests to an Icinga 2 on 127.0.0.1: requests.py SECONDS. It creates a file logger and deletes it; with more than 0 seconds six clients then
do that in a loop. The status is 1 if a request got no answer for 10 seconds."""
import base64
import json
import socket
import ssl
import sys
import threading
import time
import urllib.error
import urllib.request

PATIENCE = 10.0  # seconds for an answer
LISTENS = ("127.0.0.1", 5665)
START = 30.0  # seconds until it has to listen
CLIENTS = 6
HEAD = {"Authorization": "Basic " + base64.b64encode(b"root:icinga").decode(), "Accept": "application/json"}
UNVERIFIED = ssl._create_unverified_context()  # the certificate is one that was made for this


def is_answered(method: str, path: str, body=None) -> bool:
    """Whether a request gets an answer, whatever that is."""
    data = None if body is None else json.dumps(body).encode()
    request = urllib.request.Request("https://127.0.0.1:5665/v1" + path, data=data, headers=HEAD, method=method)
    try:
        urllib.request.urlopen(request, context=UNVERIFIED, timeout=PATIENCE)
    except urllib.error.HTTPError:
        return True
    except OSError:
        return False
    return True


def listens() -> bool:
    """Whether the server takes connections, which it has some time to begin with."""
    begin = time.monotonic()
    while time.monotonic() - begin < START:
        try:
            socket.create_connection(LISTENS, 1).close()
            return True
        except OSError:
            time.sleep(0.2)
    return False


def create_and_delete(name: str) -> bool:
    logger = {"attrs": {"path": "./data/log/" + name, "severity": "notice"}}
    return is_answered("PUT", "/objects/fileloggers/" + name, logger) and is_answered("DELETE", "/objects/fileloggers/%s?cascade=1" % name)


class Load:
    """Clients that go on until the time is over, or until one of them gets no answer."""

    def __init__(self, seconds: float) -> None:
        self.begin, self.seconds = time.monotonic(), seconds
        self.count, self.hung_after = 0, 0.0

    def client(self, number: int) -> None:
        turn = 0
        while time.monotonic() - self.begin < self.seconds and not self.hung_after:
            turn += 1
            asked = time.monotonic()
            if not create_and_delete("logger-%d-%d" % (number, turn)):
                self.hung_after = asked - self.begin
            self.count += 1

    def run(self) -> None:
        threads = [threading.Thread(target=self.client, args=(number,)) for number in range(CLIENTS)]
        for thread in threads:
            thread.start()
        for thread in threads:
            thread.join()


def main() -> int:
    seconds = float(sys.argv[1])
    if not listens() or not create_and_delete("second"):
        print("the server doesn't answer")
        return 1
    if not seconds:
        return 0
    load = Load(seconds)
    load.run()
    if load.hung_after:
        print("after %.1f s and %d pairs of requests the server no longer answers" % (load.hung_after, load.count))
        return 1
    print("%d pairs of requests in %g s, and the server still answers" % (load.count, seconds))
    return 0


if __name__ == "__main__":
    sys.exit(main())
