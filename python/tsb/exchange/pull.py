"""Reads the plan of a controller by SNMP, and writes it as a plan.

It only reads. The community comes from a file, and is never shown. What a plan has no
place for is printed, a line for each value.
"""

import argparse
import secrets
import socket
import time
from collections.abc import Iterator, Sequence
from pathlib import Path

from tsb import files
from tsb.errors import Error, shown
from tsb.exchange import oids
from tsb.exchange.forms import Oid, Value
from tsb.exchange.objects import ASC, TIME
from tsb.exchange.plans import Made, written
from tsb.exchange.walk import Line, dotted, printed
from tsb.options import Words, called
from tsb.panel.command import port
from tsb.progress import progress

try:
    from tsb.exchange.messages import V1, V2C, Reply, reply, request
except ImportError as missing:  # (the rest of the package goes without it)
    raise Error(f"SNMP needs pysnmp: python/setup.sh ({missing})") from None

PROGRAM = called("pull")
PORT = 161
COMMUNITY = b"public"
TIMEOUT, TRIES = 2.0, 4  # seconds for an answer, and how often it is asked for
MOST = 200_000  # values of a walk
TURNS = 25  # values that a bulk request asks for
LONGEST = 65_535  # bytes of an answer
NO_SUCH_NAME = 2  # with which a walk by SNMPv1 ends


class Manager:
    """Who asks an agent: one value after another."""

    def __init__(
        self, host: str, number: int, community: bytes, version: int
    ) -> None:
        self._community, self._version = community, version
        self._number = secrets.randbelow(1 << 30)
        self._name = f"{shown(host)}:{number}"
        try:
            kind, proto, _, address = _address(host, number)
            self._socket = socket.socket(kind, socket.SOCK_DGRAM, proto)
            self._socket.connect(address)
        except OSError as fault:
            raise Error(f"{self._name}: {fault.strerror or fault}") from None

    def close(self) -> None:
        """Closes the socket."""
        self._socket.close()

    def after(self, oid: Oid) -> Reply:
        """What the agent answers of the value after an OID; by SNMPv2c of several."""
        self._number = (self._number + 1) % (1 << 31)
        is_bulk = self._version == V2C
        kind = "GetBulkRequestPDU" if is_bulk else "GetNextRequestPDU"
        of = (kind, self._version, self._community, self._number, [oid])
        asks = request(*of, TURNS if is_bulk else 0)
        for _ in range(TRIES):
            try:
                self._socket.send(asks)
                if (found := self._answer()) is not None:
                    return found
            except ConnectionRefusedError:
                raise Error(f"{self._name}: nobody answers at this port") from None
            except OSError as fault:
                raise Error(f"{self._name}: {fault.strerror or fault}") from None
        what = "no answer: is the community right, and the version?"
        raise Error(f"{self._name}: {what}")

    def _answer(self) -> Reply | None:
        """The answer to the last request; None where none comes in time."""
        until = time.monotonic() + TIMEOUT
        while (left := until - time.monotonic()) > 0:
            self._socket.settimeout(left)
            try:
                datagram = self._socket.recv(LONGEST)
            except TimeoutError:
                break
            found = reply(datagram)
            if found.request == self._number:
                return found
        return None

    def walk(self, *roots: Oid) -> Iterator[Line]:
        """All values below these OIDs, as lines of a walk."""
        number = 0
        for root in roots:
            for number, line in enumerate(self._below(root), number + 1):
                yield line._replace(number=number)

    def _below(self, root: Oid) -> Iterator[Line]:
        """All values below an OID."""
        oid, number = root, 0
        while number < MOST:
            found = self.after(oid)
            if found.error not in (0, NO_SUCH_NAME):
                raise Error(f"{self._name}: {dotted(oid)}: error {found.error}")
            values = [] if found.error else found.values
            for after, value, text in values:
                if after[: len(root)] != root:
                    return
                if after <= oid:
                    what = f"{dotted(after)} comes after {dotted(oid)}"
                    raise Error(f"{self._name}: {what}")
                oid, number = after, number + 1
                yield Line(number, oid, value, _said(oid, value, text))
            if found.ends or not values:
                return
        raise Error(f"{self._name}: over {MOST} values")


def _address(host: str, number: int) -> tuple[int, int, str, tuple[str, int]]:
    """The address of a host: kind, protocol, name and address of its socket."""
    found = socket.getaddrinfo(host, number, type=socket.SOCK_DGRAM)
    kind, _, proto, name, address = found[0]
    return kind, proto, name, (str(address[0]), int(address[1]))


def _said(oid: Oid, value: Value | None, text: str) -> str:
    """A value as snmpwalk prints it."""
    return text if value is None else printed(oid, value).partition(" = ")[2]


def community(path: Path | None) -> bytes:
    """The community of a file. No error has its text."""
    if path is None:
        return COMMUNITY
    lines = files.read(path, 1 << 10).splitlines()
    if not lines or not lines[0]:
        raise Error(f"{path}: it has no community in its first line")
    return lines[0]


def _words() -> argparse.ArgumentParser:
    words = Words(
        prog=PROGRAM,
        description="Reads the plan of a controller by SNMP. It sets nothing.",
        epilog="docs/use/EXCHANGE.md says what is read.",
        allow_abbrev=False,
    )
    words.add_argument("host", metavar="HOST")
    words.add_argument("--out", type=Path, required=True, metavar="PLAN")
    words.add_argument("--port", type=port, default=PORT, help=f"{PORT} without it")
    words.add_argument(
        "--community", type=Path, metavar="FILE",
        help="a file whose first line is the community; public without it",
    )  # fmt: skip
    words.add_argument(
        "--version", choices=["1", "2c"], default="1", help="of SNMP; 1 without it"
    )
    words.add_argument(
        "--walk", type=Path, metavar="FILE",
        help="a file for the values as snmpwalk -On prints them",
    )  # fmt: skip
    return words


def main(words: Sequence[str]) -> int:
    """Reads a plan; the status to end with."""
    given = _words().parse_args(words)
    for path in (given.out, given.walk):
        if path is not None and path.exists():
            raise Error(f"{path}: there is such a file: name another")
    version = V1 if given.version == "1" else V2C
    manager = Manager(given.host, given.port, community(given.community), version)
    try:
        lines = list(progress(manager.walk(ASC, TIME), "values"))
    finally:
        manager.close()
    if given.walk is not None:
        text = "".join(f"{dotted(it.oid)} = {it.text}\n" for it in lines)
        given.walk.write_text(text, encoding="latin-1", errors="replace")
    reading = oids.plan_of(lines)
    said = f"{len(reading.taken)} of {reading.lines} values of {shown(given.host)}"
    for line in written(Made(reading.plan, reading.remarks, said), given.out):
        print(line)
    return 0
