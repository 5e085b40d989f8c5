"""Messages of SNMPv1 and SNMPv2c, by pysnmp: what an agent answers, and what is asked
of one.

A message that is no request of these versions, or has another community, has no answer.
Communities are in no error and in no text.
"""

import itertools
from collections.abc import Iterable, Sequence
from typing import Any, NamedTuple

from pyasn1.codec.ber import decoder, encoder
from pyasn1.error import PyAsn1Error
from pyasn1.type import univ
from pysnmp.error import PySnmpError
from pysnmp.proto import api, rfc1155, rfc1902, rfc1905

from tsb.errors import Error
from tsb.exchange.agent import Agent, Fault
from tsb.exchange.forms import Oid, Unsigned, Value

V1, V2C = api.protoVersion1, api.protoVersion2c
MOST = 128  # values of a request, and of an answer to a bulk request
LONGEST = 65_000  # bytes of an answer
TOO_BIG = 1
#: The errors of SNMPv2c in place of those of SNMPv1: notWritable, wrongValue, genErr.
ERRORS_2C = {Fault.NO_SUCH_NAME: 17, Fault.BAD_VALUE: 10, Fault.GENERAL: 5}
#: What comes in place of a value where there is none.
ENDS = (rfc1905.EndOfMibView, rfc1905.NoSuchObject, rfc1905.NoSuchInstance)
#: The types of numbers that are not below 0.
GAUGES = (rfc1155.Gauge, rfc1902.Gauge32, rfc1902.Unsigned32)
#: What is raised of bytes that are no message.
_BAD = (PyAsn1Error, PySnmpError, ValueError, TypeError, IndexError, OverflowError)


class Communities(NamedTuple):
    """The words that let somebody read, and set."""

    reads: bytes
    sets: bytes


class _Answer(NamedTuple):
    """An answer: an error and its place, or values."""

    values: list[tuple[Oid, Any]]
    error: int = 0
    place: int = 0


class _Message:
    """A request."""

    def __init__(self, datagram: bytes) -> None:
        self.version = int(api.decodeMessageVersion(datagram))
        self.module = api.protoModules[self.version]
        message = self.module.Message()
        self.message, _ = decoder.decode(datagram, asn1Spec=message)
        self.community = bytes(self.module.apiMessage.getCommunity(self.message))
        self.pdu = self.module.apiMessage.getPDU(self.message)
        self.values = [
            (tuple(map(int, oid)), value)
            for oid, value in self.module.apiPDU.getVarBinds(self.pdu)
        ]

    def asks(self, name: str) -> bool:
        """Whether this is a request of this kind; SNMPv1 has no bulk requests."""
        kind = getattr(self.module, name, None)
        return kind is not None and bool(self.pdu.isSameTypeWith(kind()))

    def value(self, value: Value) -> Any:
        """A value as a message has it."""
        if isinstance(value, bytes):
            return self.module.OctetString(value)
        if isinstance(value, tuple):
            return self.module.ObjectIdentifier(value)
        if isinstance(value, Unsigned):
            gauge = "Gauge" if self.version == V1 else "Gauge32"
            return getattr(self.module, gauge)(value)
        return self.module.Integer(value)

    def failed(self, fault: Fault, place: int) -> _Answer:
        """The answer that nothing was done."""
        error = int(fault) if self.version == V1 else ERRORS_2C[fault]
        return _Answer(self.values, error, place)

    def written(self, answer: _Answer) -> bytes:
        """The bytes of an answer."""
        response = self.module.apiMessage.getResponse(self.message)
        pdu = self.module.apiMessage.getPDU(response)
        self.module.apiPDU.setErrorStatus(pdu, answer.error)
        self.module.apiPDU.setErrorIndex(pdu, answer.place)
        self.module.apiPDU.setVarBinds(pdu, answer.values)
        return bytes(encoder.encode(response))


def answer(agent: Agent, datagram: bytes, known: Communities) -> bytes | None:
    """The answer to a message; None where there is none."""
    try:
        asked = _Message(datagram)
    except (*_BAD, KeyError, AttributeError, RecursionError):
        return None
    sets = asked.asks("SetRequestPDU")
    if asked.community not in ((known.sets,) if sets else known):
        return None
    found = _answered(agent, asked, sets)
    if found is None:
        return None
    written = asked.written(found)
    if len(written) > LONGEST:
        written = asked.written(_Answer([], TOO_BIG))
    return written


def _answered(agent: Agent, asked: _Message, sets: bool) -> _Answer | None:
    if len(asked.values) > MOST:
        return _Answer([], TOO_BIG)
    if sets:
        return _set(agent, asked)
    if asked.asks("GetRequestPDU"):
        return _got(agent, asked)
    if asked.asks("GetNextRequestPDU"):
        return _next(agent, asked)
    if asked.asks("GetBulkRequestPDU"):
        return _bulk(agent, asked)
    return None


def _set(agent: Agent, asked: _Message) -> _Answer:
    """Sets all values or none."""
    values = [(oid, _plain(value)) for oid, value in asked.values]
    for place, (_, value) in enumerate(values, 1):
        if value is None:
            return asked.failed(Fault.BAD_VALUE, place)
    fine = [(oid, value) for oid, value in values if value is not None]
    refusal = agent.set(fine)
    if refusal is not None:
        return asked.failed(refusal.fault, refusal.place)
    return _Answer(asked.values)


def _plain(value: Any) -> Value | None:
    """A value that is a number, octets or an OID; None for others."""
    if isinstance(value, GAUGES):
        return Unsigned(value)
    if isinstance(value, univ.Integer):
        return int(value)
    if isinstance(value, univ.ObjectIdentifier):
        return tuple(map(int, value))
    if isinstance(value, univ.OctetString) and not isinstance(value, univ.Null):
        return bytes(value)
    return None


def _got(agent: Agent, asked: _Message) -> _Answer:
    """The values of these very OIDs."""
    found: list[tuple[Oid, Any]] = []
    for place, (oid, _) in enumerate(asked.values, 1):
        value = agent.get(oid)
        if value is None and asked.version == V1:
            return asked.failed(Fault.NO_SUCH_NAME, place)
        there = rfc1905.noSuchInstance if value is None else asked.value(value)
        found.append((oid, there))
    return _Answer(found)


def _following(agent: Agent, asked: _Message, oid: Oid) -> tuple[Oid, Any]:
    """The first OID after this one with its value, of SNMPv2c."""
    after = agent.after(oid)
    value = None if after is None else agent.get(after)
    if after is None or value is None:
        return oid, rfc1905.endOfMibView
    return after, asked.value(value)


def _next(agent: Agent, asked: _Message) -> _Answer:
    """The values of the OIDs after these."""
    if asked.version == V1:
        for place, (oid, _) in enumerate(asked.values, 1):
            if agent.after(oid) is None:
                return asked.failed(Fault.NO_SUCH_NAME, place)
    return _Answer([_following(agent, asked, oid) for oid, _ in asked.values])


def _bulk(agent: Agent, asked: _Message) -> _Answer:
    """The values of the OIDs after these, and of those after them, as many as there is
    room for."""
    bulk = asked.module.apiBulkPDU
    once = max(0, min(int(bulk.getNonRepeaters(asked.pdu)), len(asked.values)))
    turns = max(0, int(bulk.getMaxRepetitions(asked.pdu)))
    oids = [oid for oid, _ in asked.values]
    found = [_following(agent, asked, oid) for oid in oids[:once]]
    row = oids[once:]
    while row and turns and len(found) + len(row) <= MOST:
        values = [_following(agent, asked, oid) for oid in row]
        found += values
        row, turns = [oid for oid, _ in values], turns - 1
        if all(value is rfc1905.endOfMibView for _, value in values):
            break
    return _Answer(found)


# What is asked of an agent


class Reply(NamedTuple):
    """What an agent answered: the number of the request, its error, and OIDs with values,
    None for a value of a type that plans don't have. It ends where the agent has none
    to follow."""

    request: int
    error: int
    values: list[tuple[Oid, Value | None, str]]
    ends: bool


def request(
    kind: str, version: int, community: bytes, number: int, oids: Iterable[Oid],
    turns: int = 0,
) -> bytes:  # fmt: skip
    """The bytes of a request that only reads; a bulk request has so many turns."""
    module = api.protoModules[version]
    pdu = getattr(module, kind)()
    of = module.apiBulkPDU if turns else module.apiPDU
    of.setDefaults(pdu)
    of.setRequestID(pdu, number)
    of.setVarBinds(pdu, [(oid, module.Null("")) for oid in oids])
    if turns:
        of.setMaxRepetitions(pdu, turns)
    message = module.Message()
    module.apiMessage.setDefaults(message)
    module.apiMessage.setCommunity(message, community)
    module.apiMessage.setPDU(message, pdu)
    return bytes(encoder.encode(message))


def reply(datagram: bytes) -> Reply:
    """What an answer says; `Error` where it is none."""
    try:
        found = _Message(datagram)
        if not found.asks("GetResponsePDU" if found.version == V1 else "ResponsePDU"):
            raise Error("it answered with no answer of SNMP")
        error = int(found.module.apiPDU.getErrorStatus(found.pdu))
        number = int(found.module.apiPDU.getRequestID(found.pdu))
    except (*_BAD, KeyError, AttributeError, RecursionError):
        raise Error("it answered with no answer of SNMP") from None
    values = list(itertools.takewhile(lambda it: not isinstance(it[1], ENDS), found.values))
    ends = len(values) < len(found.values)
    return Reply(number, error, list(_printed(values)), ends)


def _printed(
    values: Sequence[tuple[Oid, Any]]
) -> Iterable[tuple[Oid, Value | None, str]]:
    """Values with what is printed of those of other types."""
    for oid, value in values:
        yield oid, _plain(value), f"{type(value).__name__}: {value.prettyPrint()}"
