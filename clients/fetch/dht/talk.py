"""What a node asks and answers: packets go in and out, and nothing here knows of sockets or clocks."""

from __future__ import annotations

import secrets
from collections.abc import Callable
from dataclasses import dataclass, field

from ..blame import Address
from . import messages
from .bounds import Pace, PaceByHost
from .lookup import Lookup
from .messages import ID_LENGTH, Answer, Contact, DhtFault, Method, Query, Refusal
from .store import Store, Tokens
from .table import Table

PATIENCE = 3.0  # seconds for an answer
ASKED = 25.0  # queries of ours in a second
HEARD = 400.0  # packets in a second that are read
ANSWERED, ANSWERED_TO_HOST = 60.0, 15  # queries in a second that are answered
MOST_WAITING = 256  # queries without an answer yet
NEAREST = 16  # nodes with which a lookup begins
FEW_NODES = 8
SOON, LATER = 2.0, 300.0  # seconds until a torrent is looked up again: as long as few are found they double, up to the later ones
FEW_PEERS = 30
FIRST_RETRY, LONGEST_RETRY = 1.0, 300.0  # seconds until we look again for the nodes near to us; they double
MOST_FAR = 20  # buckets that are looked up at a time
UNKNOWN = b""  # the number of a node of which the address alone is known


@dataclass(eq=False)
class Search:
    """A torrent whose peers are looked for. With a port we are announced as one of them."""

    infohash: bytes
    port: int
    on_peers: Callable[[list[Address]], None]
    told: set[Address] = field(default_factory=set)
    next: float = 0.0
    wait: float = SOON
    lookup: Lookup | None = None


@dataclass(frozen=True)
class Waiting:
    """A query that waits for its answer."""

    contact: Contact
    until: float
    lookup: Lookup | None = None


class Talk:
    """A node of the DHT. `send` takes a packet and its address."""

    def __init__(self, send: Callable[[bytes, Address], None], first_nodes: list[Address], own: bytes = b"") -> None:
        self.own = own or secrets.token_bytes(ID_LENGTH)
        self.send, self.first_nodes = send, first_nodes
        self.table, self.store, self.tokens = Table(self.own), Store(), Tokens()
        self.searches: list[Search] = []
        self.asks, self.hears, self.answers = Pace(ASKED), Pace(HEARD), PaceByHost(ANSWERED_TO_HOST, ANSWERED)
        self._waiting: dict[bytes, Waiting] = {}
        self._own_lookups: list[Lookup] = []
        self._far: list[bytes] = []  # numbers that are looked up once
        self._next_first, self._retry = 0.0, FIRST_RETRY
        self._way_in = Lookup(self.own, self.own, wants_peers=False)  # the last one

    # What is heard.

    def hear(self, packet: bytes, address: Address, now: float) -> None:
        """A packet came. Nonsense, and what is beyond the bounds, is passed over."""
        if not self.hears.allows(now):
            return
        try:
            message = messages.read(packet)
        except DhtFault:
            return
        if isinstance(message, Query):
            self._answer(message, address, now)
            return
        waiting = self._waiting.get(message.transaction)
        if waiting is None or waiting.contact.address != address:
            return
        del self._waiting[message.transaction]
        if isinstance(message, Refusal):
            self._fail(waiting, now)
        else:
            self._take(waiting, message, now)

    def _take(self, waiting: Waiting, answer: Answer, now: float) -> None:
        """An answer to a query of ours."""
        contact = Contact(answer.sender, waiting.contact.address)
        self.table.answered(contact, now)
        if waiting.lookup and waiting.contact.node_id == UNKNOWN:
            waiting.lookup.add([contact, *answer.contacts])
        elif waiting.lookup:
            waiting.lookup.answered(waiting.contact, answer)
            self._tell_peers(waiting.lookup)

    def _tell_peers(self, lookup: Lookup) -> None:
        """New peers go to who looks for them."""
        for search in self.searches:
            if search.lookup is lookup and (new := lookup.peers - search.told):
                search.told |= new
                search.on_peers(sorted(new))

    def _fail(self, waiting: Waiting, now: float) -> None:
        """A node didn't answer, or with an error."""
        if waiting.lookup:
            waiting.lookup.failed(waiting.contact)
        if spare := self.table.failed(waiting.contact):
            self._ask(spare, Method.PING, now)

    def _answer(self, query: Query, address: Address, now: float) -> None:
        """A node asks us. A new one is asked whether it is there, where we have room for it."""
        if not self.answers.allows(address[0], now):
            return
        self.send(self._reply(query, address, now), address)
        if not query.is_read_only and self.table.has_room(query.sender):
            self._ask(Contact(query.sender, address), Method.PING, now)

    def _reply(self, query: Query, address: Address, now: float) -> bytes:
        answer = Answer(query.transaction, self.own)
        if query.method is Method.FIND_NODE:
            answer = Answer(query.transaction, self.own, self.table.nearest(query.target))
        elif query.method is Method.GET_PEERS:
            contacts, peers = self.table.nearest(query.target), self.store.peers_of(query.target, now)
            answer = Answer(query.transaction, self.own, contacts, peers, self.tokens.give(address[0], now))
        elif query.method is Method.ANNOUNCE_PEER:
            if not self.tokens.is_good(query.token, address[0], now):
                return messages.spell_error(query.transaction, 203, "the token is another one")
            self.store.add(query.target, (address[0], query.port or address[1]), now)
        return messages.spell_answer(answer)

    # What is asked.

    def _ask(self, contact: Contact, method: Method, now: float, lookup: Lookup | None = None, target: bytes = bytes(ID_LENGTH)) -> None:
        """Sends a query. Whether it is in the bounds is known before, but for single ones."""
        if len(self._waiting) >= MOST_WAITING or not self.asks.allows(now):
            if lookup:
                lookup.failed(contact)
            return
        transaction = secrets.token_bytes(4)
        self._waiting[transaction] = Waiting(contact, now + PATIENCE, lookup)
        self.send(messages.spell_query(Query(transaction, method, self.own, target)), contact.address)

    def greet(self, address: Address, now: float) -> None:
        """Somebody told that there is a node."""
        if address[1] and address not in self.table.addresses():
            self._ask(Contact(UNKNOWN, address), Method.PING, now)

    def tick(self, now: float) -> None:
        """What is due: answers that don't come, the way in, lookups, and nodes of which nothing was heard."""
        for transaction, waiting in list(self._waiting.items()):
            if now >= waiting.until:
                del self._waiting[transaction]
                self._fail(waiting, now)
        self._enter(now)
        for search in self.searches:
            self._look(search, now)
        self._keep(now)
        for lookup in self._own_lookups:
            self._pump(lookup, now)
        self._own_lookups = [lookup for lookup in self._own_lookups if not lookup.is_done or self._is_asked(lookup)]

    def _is_asked(self, lookup: Lookup) -> bool:
        """Whether an answer for the lookup is awaited."""
        return any(waiting.lookup is lookup for waiting in self._waiting.values())

    def _enter(self, now: float) -> None:
        """Looks for the nodes that are near to us, now and then: others come. The first nodes are asked as long as few are known."""
        if now < self._next_first or not (self.first_nodes or len(self.table)):
            return
        self._next_first, self._retry = now + self._retry, min(2 * self._retry, LONGEST_RETRY)
        self._way_in = lookup = Lookup(self.own, self.own, wants_peers=False)
        lookup.add(self.table.nearest(self.own))
        self._own_lookups = [*self._own_lookups[-3:], lookup]
        self._far = self.table.far()[:MOST_FAR]
        for address in self.first_nodes:
            self._ask_first(address, now)

    def begin_at(self, address: Address, now: float) -> None:
        """One more first node. Where others were asked already it is asked at once, and not when they are asked again."""
        self.first_nodes.append(address)
        if now < self._next_first:
            self._ask_first(address, now)

    def _ask_first(self, address: Address, now: float) -> None:
        """Asks a first node for those near to us, as long as few are known."""
        if len(self.table) < FEW_NODES:
            self._ask(Contact(UNKNOWN, address), Method.FIND_NODE, now, self._way_in, self.own)
            if self._way_in not in self._own_lookups:  # it was over
                self._own_lookups.append(self._way_in)

    def _look(self, search: Search, now: float) -> None:
        """Begins, goes on with, or ends the lookup of a torrent. Peers that announced themselves here are found at once."""
        if new := set(self.store.peers_of(search.infohash, now)) - search.told:
            search.told |= new
            search.on_peers(sorted(new))
        if search.lookup is None:
            if now < search.next or not len(self.table):
                return
            search.lookup = Lookup(search.infohash, self.own, wants_peers=True)
            search.told = set()
        if len(search.lookup.candidates) < NEAREST:  # it may have begun when one node was known, whose answer is late
            search.lookup.add(self.table.nearest(search.infohash, NEAREST))
        self._pump(search.lookup, now)
        if search.lookup.is_done:
            self._announce(search, search.lookup, now)
            search.next = now + (search.wait if len(search.lookup.peers) < FEW_PEERS else LATER)
            search.wait, search.lookup = min(2 * search.wait, LATER), None

    def _pump(self, lookup: Lookup, now: float) -> None:
        """Asks who is next, as far as the bounds allow."""
        method = Method.GET_PEERS if lookup.wants_peers else Method.FIND_NODE
        while len(self._waiting) < MOST_WAITING and self.asks.is_open(now) and (contact := lookup.next(now)):
            self._ask(contact, method, now, lookup, lookup.target)

    def _announce(self, search: Search, lookup: Lookup, now: float) -> None:
        """Tells the nearest nodes that we have the torrent, or want it."""
        for contact, token in lookup.keepers() if search.port else []:
            transaction = secrets.token_bytes(4)
            query = Query(transaction, Method.ANNOUNCE_PEER, self.own, search.infohash, token, search.port)
            self._waiting[transaction] = Waiting(contact, now + PATIENCE)
            self.send(messages.spell_query(query), contact.address)

    def _keep(self, now: float) -> None:
        """Looks after the table: one node, or one bucket, at a time."""
        if (contact := self.table.questionable(now)) and not any(waiting.contact == contact for waiting in self._waiting.values()):
            self._ask(contact, Method.PING, now)
        if not self._own_lookups and (target := self._far.pop(0) if self._far else self.table.stale(now)):
            lookup = Lookup(target, self.own, wants_peers=False)
            lookup.add(self.table.nearest(target))
            self._own_lookups.append(lookup)
