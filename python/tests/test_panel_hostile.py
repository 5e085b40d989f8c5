"""What is sent to a panel by hand, over sockets."""

import gzip
import socket
import subprocess
import sys
import time
from collections.abc import Iterator
from pathlib import Path

import pytest

PAGES = 240  # connections, more than a panel lets in


class Heard:
    """A panel of a test, and what it says on standard error."""

    def __init__(self, examples: Path, folder: Path) -> None:
        words = [sys.executable, "-m", "tsb", "panel", str(examples / "quad.json")]
        self.errors = (folder / "errors").open("w+")
        self.process = subprocess.Popen(
            [*words, "--runs", str(folder / "runs")], stdout=subprocess.PIPE,
            stderr=self.errors, text=True,
        )  # fmt: skip
        assert self.process.stdout is not None
        address = self.process.stdout.readline().split()[-1]
        self.port, self.token = int(address.split(":")[2].split("/")[0]), ""
        self.token = address.split("/")[3]

    def connected(self) -> socket.socket:
        """A connection that sends nothing."""
        return socket.create_connection(("127.0.0.1", self.port), 10)

    def said(self, request: bytes) -> bytes:
        """The first line of the answer to a request."""
        with self.connected() as link:
            link.sendall(request)
            return link.recv(4096).partition(b"\r\n")[0]

    def page(self) -> bytes:
        """The first line of the answer to who asks for the page."""
        host = f"Host: 127.0.0.1:{self.port}\r\nConnection: close\r\n\r\n"
        return self.said(f"GET /{self.token}/ HTTP/1.1\r\n{host}".encode())

    def told(self) -> str:
        """What it said of errors."""
        self.errors.seek(0)
        return self.errors.read()


@pytest.fixture
def heard(examples: Path, tmp_path: Path) -> Iterator[Heard]:
    """A panel."""
    found = Heard(examples, tmp_path)
    yield found
    found.process.terminate()
    assert found.process.wait(20) == 0
    assert found.process.stdout is not None
    found.process.stdout.close()
    found.errors.close()


def test_requests_that_are_none(heard: Heard) -> None:
    """Each has a status below 500, and none leaves a trace."""
    host = b"Host: 127.0.0.1:%d\r\n" % heard.port
    packed = gzip.compress(bytes(64 << 20))
    post = f"POST /{heard.token}/open HTTP/1.1\r\n".encode() + host
    post += b"Origin: http://127.0.0.1:%d\r\n" % heard.port
    post += b"Content-Type: application/json\r\nContent-Encoding: gzip\r\n"
    post += b"Content-Length: %d\r\n\r\n" % len(packed)
    for request in (
        b"GET * HTTP/1.1\r\n" + host + b"\r\n",
        b"GET * HTTP/1.1\r\nHost: a\r\n\r\n",
        b"CONNECT a:1 HTTP/1.1\r\n" + host + b"\r\n",
        b"OPTIONS * HTTP/1.1\r\n" + host + b"\r\n",
        b"FOO / HTTP/1.1\r\n\r\n",
        b"\x16\x03\x01\x02\x00\x01\x00\r\n\r\n",
        post + packed,
    ):
        assert heard.said(request).split()[1:2] < [b"500"], request[:40]
    assert heard.page() == b"HTTP/1.1 200 OK" and heard.told() == ""


def test_connections_that_say_nothing(heard: Heard) -> None:
    """They take no place from a page, and nothing is written of them."""
    silent = []
    for _ in range(6):
        silent += [heard.connected() for _ in range(PAGES // 6)]
        time.sleep(0.05)
    assert heard.page() == b"HTTP/1.1 200 OK"
    time.sleep(0.5)
    files = list(Path(f"/proc/{heard.process.pid}/fd").iterdir())
    assert len(files) < 230 and heard.told() == ""
    for it in silent:
        it.close()
    assert heard.page() == b"HTTP/1.1 200 OK"
