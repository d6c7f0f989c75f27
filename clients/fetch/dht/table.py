"""The nodes that are known: 8 in each bucket, by how far they are from us (BEP 5)."""

from __future__ import annotations

import ipaddress
import secrets
from collections.abc import Iterable
from dataclasses import dataclass, field

from ..blame import Address
from .messages import ID_LENGTH, Contact

BUCKET = 8
QUESTIONABLE = 900.0  # seconds without a word, after which a node is asked whether it is there
BAD = 2  # queries that a node didn't answer one after the other
MOST_OF_HOST = 1  # nodes at one address of the public network, so that nobody fills the table


def distance(one: bytes, other: bytes) -> int:
    """How far two numbers are apart: what is different in them."""
    return int.from_bytes(one, "big") ^ int.from_bytes(other, "big")


def is_public(host: str) -> bool:
    """Whether the address is one of the public network."""
    return ipaddress.ip_address(host).is_global


@dataclass
class Node:
    """A node that has answered us."""

    contact: Contact
    heard: float
    failures: int = 0


@dataclass
class Bucket:
    """Nodes of one distance, and one that may take the place of a bad one."""

    nodes: list[Node] = field(default_factory=list)
    spare: Contact | None = None
    changed: float = 0.0


class Table:
    """All nodes. The bucket of a node is told by the highest bit in which its number is another than ours."""

    def __init__(self, own: bytes) -> None:
        self.own = own
        self.buckets: dict[int, Bucket] = {}
        self.hosts: dict[str, int] = {}

    def __len__(self) -> int:
        return sum(len(bucket.nodes) for bucket in self.buckets.values())

    def _find(self, node_id: bytes) -> tuple[Bucket, Node | None]:
        bucket = self.buckets.setdefault(distance(self.own, node_id).bit_length(), Bucket())
        return bucket, next((node for node in bucket.nodes if node.contact.node_id == node_id), None)

    def answered(self, contact: Contact, now: float) -> None:
        """A node answered a query. It is kept where there is room, and stays where it was known at this address."""
        if contact.node_id == self.own:
            return
        bucket, node = self._find(contact.node_id)
        if node:
            if node.contact == contact:
                node.heard, node.failures, bucket.changed = now, 0, now
            return
        if is_public(contact.address[0]) and self.hosts.get(contact.address[0], 0) >= MOST_OF_HOST:
            return
        bad = next((node for node in bucket.nodes if node.failures >= BAD), None)
        if len(bucket.nodes) >= BUCKET and bad is None:
            bucket.spare = contact
            return
        if len(bucket.nodes) >= BUCKET and bad:
            self._remove(bucket, bad)
        bucket.nodes.append(Node(contact, now))
        bucket.changed = now
        self.hosts[contact.address[0]] = self.hosts.get(contact.address[0], 0) + 1

    def _remove(self, bucket: Bucket, node: Node) -> None:
        bucket.nodes.remove(node)
        host = node.contact.address[0]
        self.hosts[host] -= 1
        if not self.hosts[host]:
            del self.hosts[host]

    def failed(self, contact: Contact) -> Contact | None:
        """A node didn't answer. It goes when that is too often; who may take its place is to be asked then."""
        bucket, node = self._find(contact.node_id)
        if node is None or node.contact != contact:
            return None
        node.failures += 1
        if node.failures < BAD:
            return None
        self._remove(bucket, node)
        spare, bucket.spare = bucket.spare, None
        return spare

    def has_room(self, node_id: bytes) -> bool:
        """Whether a node with this number, which isn't known yet, would be kept."""
        if node_id == self.own:
            return False
        bucket, node = self._find(node_id)
        return node is None and (len(bucket.nodes) < BUCKET or any(node.failures >= BAD for node in bucket.nodes))

    def nearest(self, target: bytes, count: int = BUCKET) -> list[Contact]:
        """The nodes that are nearest to a number."""
        nodes: Iterable[Node] = (node for bucket in self.buckets.values() for node in bucket.nodes if node.failures < BAD)
        contacts = [node.contact for node in nodes]
        return sorted(contacts, key=lambda contact: distance(contact.node_id, target))[:count]

    def questionable(self, now: float) -> Contact | None:
        """A node of which nothing was heard for long."""
        nodes = [node for bucket in self.buckets.values() for node in bucket.nodes if now - node.heard > QUESTIONABLE]
        return min(nodes, key=lambda node: node.heard).contact if nodes else None

    def stale(self, now: float) -> bytes | None:
        """A number in a bucket in which nothing has changed for long: it is to be looked up. The bucket counts as changed then."""
        for length, bucket in self.buckets.items():
            if bucket.nodes and now - bucket.changed > QUESTIONABLE:
                bucket.changed = now
                return self._number_in(length)
        return None

    def _number_in(self, length: int) -> bytes:
        """Any number that would lie in this bucket."""
        apart = 1 << (length - 1) | secrets.randbits(length - 1) if length > 1 else 1
        return (int.from_bytes(self.own, "big") ^ apart).to_bytes(ID_LENGTH, "big")

    def far(self) -> list[bytes]:
        """A number in each bucket that is farther away than our nearest node: who is new looks them up, so that no part is unknown to us."""
        nearest = min((length for length, bucket in self.buckets.items() if bucket.nodes), default=8 * ID_LENGTH)
        return [self._number_in(length) for length in range(8 * ID_LENGTH, nearest, -1)]

    def addresses(self) -> set[Address]:
        """Where the nodes are."""
        return {node.contact.address for bucket in self.buckets.values() for node in bucket.nodes}
