"""Queries and answers between nodes as bytes (BEP 5)."""

from __future__ import annotations

import socket
from dataclasses import dataclass, field
from enum import StrEnum

from bencode import BencodeFault, Value, bdecode, bencode

from ..blame import Address

ID_LENGTH = 20
CONTACT_LENGTH = 26
MOST_CONTACTS = 16  # that are read of an answer; nodes tell 8
MOST_PEERS = 100  # the same of peers
LONGEST_TRANSACTION = 32  # bytes of a query's transaction, which the answer repeats
LONGEST_TOKEN = 64


class DhtFault(ValueError):
    """A packet is no message of the DHT."""


class Method(StrEnum):
    """What a query asks."""

    PING = "ping"
    FIND_NODE = "find_node"
    GET_PEERS = "get_peers"
    ANNOUNCE_PEER = "announce_peer"


@dataclass(frozen=True)
class Contact:
    """A node and where it is."""

    node_id: bytes
    address: Address


@dataclass(frozen=True)
class Query:
    """A question. `target` is a node's number or an infohash; `port` is 0 where the packet's own port is meant."""

    transaction: bytes
    method: Method
    sender: bytes
    target: bytes = bytes(ID_LENGTH)
    token: bytes = b""
    port: int = 0
    is_read_only: bool = False  # the sender answers no queries (BEP 43)


@dataclass(frozen=True)
class Answer:
    """What a node knows."""

    transaction: bytes
    sender: bytes
    contacts: list[Contact] = field(default_factory=list)
    peers: list[Address] = field(default_factory=list)
    token: bytes = b""


@dataclass(frozen=True)
class Refusal:
    """A node's error."""

    transaction: bytes


def spell_address(address: Address) -> bytes:
    """Four bytes and two for the port."""
    return socket.inet_aton(address[0]) + address[1].to_bytes(2, "big")


def read_addresses(listed: Value | None) -> list[Address]:
    """The peers of an answer; those that are cut short are left out."""
    told = [entry for entry in listed[:MOST_PEERS] if isinstance(entry, bytes) and len(entry) == 6] if isinstance(listed, list) else []
    return [(socket.inet_ntoa(entry[:4]), int.from_bytes(entry[4:], "big")) for entry in told]


def spell_contacts(contacts: list[Contact]) -> bytes:
    """26 bytes for each node."""
    return b"".join(contact.node_id + spell_address(contact.address) for contact in contacts)


def read_contacts(told: Value | None) -> list[Contact]:
    """The nodes of an answer; one that is cut short is left out."""
    data = told[: MOST_CONTACTS * CONTACT_LENGTH] if isinstance(told, bytes) else b""
    parts = [data[at : at + CONTACT_LENGTH] for at in range(0, len(data) - CONTACT_LENGTH + 1, CONTACT_LENGTH)]
    return [Contact(part[:20], (socket.inet_ntoa(part[20:24]), int.from_bytes(part[24:], "big"))) for part in parts]


def spell_query(query: Query) -> bytes:
    """The packet of a question."""
    arguments: dict[bytes, Value] = {b"id": query.sender}
    if query.method is Method.FIND_NODE:
        arguments[b"target"] = query.target
    elif query.method is not Method.PING:
        arguments[b"info_hash"] = query.target
    if query.method is Method.ANNOUNCE_PEER:
        arguments |= {b"port": query.port, b"token": query.token}
    return bencode({b"t": query.transaction, b"y": b"q", b"q": query.method.encode(), b"a": arguments})


def spell_answer(answer: Answer) -> bytes:
    """The packet of an answer. It names nodes, peers and a token where it has some."""
    told: dict[bytes, Value] = {b"id": answer.sender}
    if answer.contacts:
        told[b"nodes"] = spell_contacts(answer.contacts)
    if answer.peers:
        told[b"values"] = [spell_address(peer) for peer in answer.peers]
    if answer.token:
        told[b"token"] = answer.token
    return bencode({b"t": answer.transaction, b"y": b"r", b"r": told})


def spell_error(transaction: bytes, number: int, text: str) -> bytes:
    """The packet of an error, by the numbers of BEP 5."""
    return bencode({b"t": transaction, b"y": b"e", b"e": [number, text.encode()]})


def read(packet: bytes) -> Query | Answer | Refusal:
    """The message of a packet. Raises DhtFault."""
    try:
        told = bdecode(packet)
    except BencodeFault as fault:
        raise DhtFault(str(fault)) from fault
    transaction = told.get(b"t") if isinstance(told, dict) else None
    if not isinstance(told, dict) or not isinstance(transaction, bytes) or len(transaction) > LONGEST_TRANSACTION:
        raise DhtFault("the packet has no transaction")
    kind = told.get(b"y")
    if kind == b"q":
        return _read_query(told, transaction)
    if kind == b"r":
        return _read_answer(told.get(b"r"), transaction)
    if kind == b"e":
        return Refusal(transaction)
    raise DhtFault("the packet is neither a query nor an answer")


def _number(told: Value | None) -> bytes:
    """A node's number or an infohash. Raises DhtFault."""
    if not isinstance(told, bytes) or len(told) != ID_LENGTH:
        raise DhtFault("a number hasn't 20 bytes")
    return told


def _read_query(told: dict[bytes, Value], transaction: bytes) -> Query:
    name, arguments = told.get(b"q"), told.get(b"a")
    methods = {method.encode(): method for method in Method}
    if not isinstance(name, bytes) or name not in methods or not isinstance(arguments, dict):
        raise DhtFault("the query is unknown")
    method, sender = methods[name], _number(arguments.get(b"id"))
    if method is Method.PING:
        target = bytes(ID_LENGTH)
    else:
        target = _number(arguments.get(b"target" if method is Method.FIND_NODE else b"info_hash"))
    token, port = arguments.get(b"token"), arguments.get(b"port")
    is_implied = bool(arguments.get(b"implied_port"))
    return Query(
        transaction, method, sender, target,
        token=token if isinstance(token, bytes) and len(token) <= LONGEST_TOKEN else b"",
        port=port if isinstance(port, int) and 0 < port < 1 << 16 and not is_implied else 0,
        is_read_only=told.get(b"ro") == 1,
    )  # fmt: skip


def _read_answer(told: Value | None, transaction: bytes) -> Answer:
    if not isinstance(told, dict):
        raise DhtFault("the answer is no dictionary")
    token = told.get(b"token")
    return Answer(
        transaction, _number(told.get(b"id")), read_contacts(told.get(b"nodes")), read_addresses(told.get(b"values")),
        token if isinstance(token, bytes) and len(token) <= LONGEST_TOKEN else b"",
    )  # fmt: skip
