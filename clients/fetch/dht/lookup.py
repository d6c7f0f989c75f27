"""The way to the nodes that are nearest to a number: each one that answers names nearer ones (BEP 5)."""

from __future__ import annotations

from collections import Counter
from collections.abc import Iterable
from dataclasses import dataclass
from enum import Enum, auto

from ..blame import Address
from .messages import Answer, Contact
from .table import BUCKET, distance, is_public

AT_ONCE = 4  # queries that wait for an answer
SLOW = 1.0  # seconds, after which a query that waits holds up no other one
MOST_CANDIDATES = 64
MOST_QUERIES = 120  # of one lookup, whatever nodes say
MOST_PEERS = 400
MOST_OF_HOST = 2  # nodes at one address of the public network


class State(Enum):
    """How far it is with one node."""

    NEW = auto()
    ASKED = auto()
    ANSWERED = auto()
    FAILED = auto()


@dataclass
class Candidate:
    """A node that may be asked."""

    contact: Contact
    apart: int
    state: State = State.NEW
    asked: float = 0.0  # when it was
    token: bytes = b""


class Lookup:
    """One lookup. Its nodes are asked from near to far, until the nearest ones that are there have answered."""

    def __init__(self, target: bytes, own: bytes, wants_peers: bool) -> None:
        self.target, self.own, self.wants_peers = target, own, wants_peers
        self.candidates: dict[bytes, Candidate] = {}
        self.peers: set[Address] = set()
        self.queries = 0
        self._hosts: Counter[str] = Counter()

    def add(self, contacts: Iterable[Contact]) -> None:
        """Nodes that somebody named. Far ones go where there are too many."""
        for contact in contacts:
            if contact.node_id == self.own or contact.node_id in self.candidates or contact.address[1] == 0:
                continue
            host = contact.address[0]
            if is_public(host) and self._hosts[host] >= MOST_OF_HOST:
                continue
            self._hosts[host] += 1
            self.candidates[contact.node_id] = Candidate(contact, distance(contact.node_id, self.target))
        new = sorted((node for node in self.candidates.values() if node.state is State.NEW), key=lambda node: node.apart)
        for node in new[MOST_CANDIDATES:]:
            del self.candidates[node.contact.node_id]

    def _nearest(self, slow: Iterable[Candidate] = ()) -> list[Candidate]:
        """The nearest nodes that may still answer, or did; without those that are slow, where they are told."""
        without = {node.apart for node in slow}
        there = [node for node in self.candidates.values() if node.state is not State.FAILED and node.apart not in without]
        return sorted(there, key=lambda node: node.apart)[:BUCKET]

    def next(self, now: float) -> Contact | None:
        """Who is to be asked now; it counts as asked. Slow nodes may still answer, and others are asked in their places meanwhile."""
        waiting = [node for node in self.candidates.values() if node.state is State.ASKED]
        slow = [node for node in waiting if now - node.asked > SLOW]
        if len(waiting) - len(slow) >= AT_ONCE or self.queries >= MOST_QUERIES:
            return None
        for node in self._nearest(slow):
            if node.state is State.NEW:
                node.state, node.asked = State.ASKED, now
                self.queries += 1
                return node.contact
        return None

    def answered(self, contact: Contact, answer: Answer) -> None:
        """A node answered. One that says another number than it was told by is taken by neither."""
        node = self.candidates.get(contact.node_id)
        if node is None or node.state is not State.ASKED:
            return
        if answer.sender != contact.node_id:
            node.state = State.FAILED
            return
        node.state, node.token = State.ANSWERED, answer.token
        self.add(answer.contacts)
        self.peers.update(answer.peers[: max(0, MOST_PEERS - len(self.peers))])

    def failed(self, contact: Contact) -> None:
        """A node didn't answer."""
        if (node := self.candidates.get(contact.node_id)) and node.state is State.ASKED:
            node.state = State.FAILED

    @property
    def is_done(self) -> bool:
        """Whether nobody is left to be asked, or waited for."""
        states = [node.state for node in self._nearest()]
        if State.ASKED in states:
            return False
        return State.NEW not in states or self.queries >= MOST_QUERIES

    def keepers(self) -> list[tuple[Contact, bytes]]:
        """The nearest nodes that have answered with a token, each with it: to them a peer is announced."""
        return [(node.contact, node.token) for node in self._nearest() if node.state is State.ANSWERED and node.token]
