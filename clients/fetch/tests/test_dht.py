"""The DHT: its messages by the examples of BEP 5, nodes that talk to each other, and nodes that lie."""

from __future__ import annotations

import random
import threading
import unittest
from collections.abc import Callable
from unittest.mock import patch

from bencode import bencode
from fetch.blame import Address
from fetch.dht.bounds import PaceByHost
from fetch.dht.lookup import AT_ONCE, MOST_CANDIDATES, MOST_QUERIES, SLOW, Lookup
from fetch.dht.messages import Answer, Contact, DhtFault, Method, Query, Refusal, read, read_contacts, spell_answer, spell_query
from fetch.dht.node import Node
from fetch.dht.store import MOST_OF_TORRENT, MOST_TOLD, MOST_TORRENTS, Store, Tokens
from fetch.dht.table import BUCKET, Table
from fetch.dht.talk import Search, Talk

ONE, OTHER = b"abcdefghij0123456789", b"mnopqrstuvwxyz123456"
INFOHASH = bytes(range(20))


def id_of(number: int) -> bytes:
    """A node's number."""
    return number.to_bytes(20, "big")


class Messages(unittest.TestCase):
    """The examples of BEP 5, byte for byte."""

    def test_queries(self) -> None:
        for query, packet in (
            (Query(b"aa", Method.PING, ONE), b"d1:ad2:id20:abcdefghij0123456789e1:q4:ping1:t2:aa1:y1:qe"),
            (
                Query(b"aa", Method.FIND_NODE, ONE, OTHER),
                b"d1:ad2:id20:abcdefghij01234567896:target20:mnopqrstuvwxyz123456e1:q9:find_node1:t2:aa1:y1:qe",
            ),
            (
                Query(b"aa", Method.GET_PEERS, ONE, OTHER),
                b"d1:ad2:id20:abcdefghij01234567899:info_hash20:mnopqrstuvwxyz123456e1:q9:get_peers1:t2:aa1:y1:qe",
            ),
            (
                Query(b"aa", Method.ANNOUNCE_PEER, ONE, OTHER, b"aoeusnth", 6881),
                b"d1:ad2:id20:abcdefghij01234567899:info_hash20:mnopqrstuvwxyz1234564:porti6881e5:token8:aoeusnthe"
                b"1:q13:announce_peer1:t2:aa1:y1:qe",
            ),
        ):
            self.assertEqual(spell_query(query), packet)
            self.assertEqual(read(packet), query)

    def test_answers(self) -> None:
        self.assertEqual(spell_answer(Answer(b"aa", OTHER)), b"d1:rd2:id20:mnopqrstuvwxyz123456e1:t2:aa1:y1:re")
        peers = b"d1:rd2:id20:abcdefghij01234567895:token8:aoeusnth6:valuesl6:axje.u6:idhtnmee1:t2:aa1:y1:re"
        # "axje.u" is 97.120.106.101 and 46 * 256 + 117.
        answer = Answer(b"aa", ONE, [], [("97.120.106.101", 11893), ("105.100.104.116", 28269)], b"aoeusnth")
        self.assertEqual(read(peers), answer)
        self.assertEqual(spell_answer(answer), peers)
        self.assertEqual(read(b"d1:eli201e23:A Generic Error Ocurrede1:t2:aa1:y1:ee"), Refusal(b"aa"))

    def test_lies(self) -> None:
        """Numbers that are too short, lists that are cut, and nonsense: a fault by its name, or what is whole."""
        for packet in (
            b"", b"i1e", b"de", b"d1:t2:aae", b"d1:t2:aa1:y1:qe", b"d1:ad2:id3:abce1:q4:ping1:t2:aa1:y1:qe", b"d1:rle1:t2:aa1:y1:re",
            b"d1:ad2:id20:abcdefghij0123456789e1:q9:get_peers1:t2:aa1:y1:qe", b"d1:rd2:id20:abcdefghij0123456789e1:t99:aa1:y1:re",
            b"l" * 1500 + b"e" * 1500, bencode({b"t": bytes(33), b"y": b"q", b"q": b"ping", b"a": {b"id": ONE}}),
        ):  # fmt: skip
            with self.subTest(packet[:40]), self.assertRaises(DhtFault):
                read(packet)
        self.assertEqual(read_contacts(ONE + b"\x0a\0\0\x01\x1a\xe1" + b"cut short"), [Contact(ONE, ("10.0.0.1", 6881))])
        many = read(bencode({b"t": b"aa", b"y": b"r", b"r": {b"id": ONE, b"values": [b"abcdef"] * 200 + [7], b"nodes": bytes(2600)}}))
        assert isinstance(many, Answer)
        self.assertEqual((len(many.peers), len(many.contacts)), (100, 16))

    def test_nonsense(self) -> None:
        whole = bencode({b"t": b"aa", b"y": b"r", b"r": {b"id": ONE, b"nodes": bytes(52), b"values": [b"axje.u"], b"token": b"x"}})
        for seed in range(3000):
            chance, data = random.Random(seed), bytearray(whole)
            for _ in range(chance.randint(1, 3)):
                data[chance.randrange(len(data))] = chance.choice(b"deil:0129-\0\xff")
            try:
                read(bytes(data))
            except DhtFault:
                continue


class Tables(unittest.TestCase):
    """Which nodes are kept."""

    def test_buckets(self) -> None:
        """Half of all numbers lie in the bucket that is farthest away: it keeps 8 of them, and a near one has its own room."""
        table = Table(id_of(0))
        for number in range(20):
            table.answered(Contact(id_of((1 << 159) + number), ("127.0.0.1", 1 + number)), 0.0)
        self.assertEqual(len(table), BUCKET)
        table.answered(Contact(id_of(5), ("127.0.0.1", 99)), 0.0)
        self.assertEqual(table.nearest(id_of(4), 1)[0].node_id, id_of(5))
        self.assertFalse(table.has_room(id_of((1 << 159) + 77)))

    def test_bad_goes(self) -> None:
        """A node that doesn't answer twice makes room for one that came later."""
        table = Table(id_of(0))
        contacts = [Contact(id_of((1 << 159) + number), ("127.0.0.1", 1 + number)) for number in range(9)]
        for contact in contacts:
            table.answered(contact, 0.0)
        self.assertIsNone(table.failed(contacts[0]))
        self.assertEqual(table.failed(contacts[0]), contacts[8])
        self.assertNotIn(contacts[0], table.nearest(id_of(0)))

    def test_one_host(self) -> None:
        """A host of the public network can't fill the table, nor take another node's number."""
        table = Table(id_of(0))
        for number in range(100):
            table.answered(Contact(id_of(1 << number), ("8.8.8.8", 1 + number)), 0.0)
        self.assertEqual(len(table), 1)
        table.answered(Contact(id_of(1), ("9.9.9.9", 5)), 0.0)
        self.assertEqual(table.nearest(id_of(1), 1)[0].address, ("8.8.8.8", 1))

    def test_refresh(self) -> None:
        """After fifteen minutes without a change a number of that bucket is looked up, once."""
        table = Table(id_of(0))
        table.answered(Contact(id_of(12), ("127.0.0.1", 1)), 0.0)
        self.assertIsNone(table.stale(899.0))
        target = table.stale(901.0)
        assert target is not None
        self.assertEqual(int.from_bytes(target, "big").bit_length(), 4)
        self.assertIsNone(table.stale(902.0))


class Stores(unittest.TestCase):
    """What others announce here."""

    def test_tokens(self) -> None:
        """A token is good for its host alone, and for no more than ten minutes."""
        tokens = Tokens()
        token = tokens.give("10.0.0.1", 0.0)
        self.assertTrue(tokens.is_good(token, "10.0.0.1", 299.0))
        self.assertTrue(tokens.is_good(token, "10.0.0.1", 301.0))
        self.assertFalse(tokens.is_good(token, "10.0.0.2", 301.0))
        self.assertFalse(tokens.is_good(b"", "10.0.0.1", 301.0))
        self.assertFalse(tokens.is_good(token, "10.0.0.1", 601.0))

    def test_bounds(self) -> None:
        store = Store()
        for number in range(1000):
            store.add(INFOHASH, ("10.0.0.1", 1 + number), float(number) / 1000)
            store.add(id_of(number), ("10.0.0.1", 1), 1.0)
        self.assertEqual(len(store.peers_of(INFOHASH, 2.0)), MOST_TOLD)
        self.assertEqual(sum(map(len, store._peers.values())), MOST_OF_TORRENT + MOST_TORRENTS - 1)
        self.assertEqual(store.peers_of(INFOHASH, 2000.0), [])
        store.add(INFOHASH, ("10.0.0.3", 3), 2000.0)
        self.assertEqual(store.peers_of(INFOHASH, 2000.0), [("10.0.0.3", 3)])

    def test_pace(self) -> None:
        """Of one host no more than 2 in a second are answered, and of all no more than 3 a second and 6 at once."""
        pace = PaceByHost(2, 3.0)
        self.assertEqual([pace.allows("a", 0.0) for _ in range(3)], [True, True, False])
        self.assertEqual([pace.allows(host, 0.5) for host in "bcdefgh"], [True, True, True, True, True, False, False])
        self.assertTrue(pace.allows("a", 1.5))


class Net:
    """Nodes in this process: a packet is heard as soon as its turn comes."""

    def __init__(self, count: int) -> None:
        self.now = 0.0
        self.packets: list[tuple[bytes, Address, Address]] = []
        self.talks: dict[Address, Talk] = {}
        for number in range(count):
            address = (f"10.0.0.{1 + number}", 6881)
            self.talks[address] = Talk(self.sender(address), [("10.0.0.1", 6881)] if number else [], random.Random(number).randbytes(20))

    def sender(self, own: Address) -> Callable[[bytes, Address], None]:
        """What a node sends by."""
        return lambda packet, address: self.packets.append((packet, own, address))

    def run(self, seconds: float) -> None:
        """Time passes, in steps of a tenth of a second."""
        end = self.now + seconds
        while self.now < end:
            self.now += 0.1
            for talk in self.talks.values():
                talk.tick(self.now)
            while self.packets:
                packet, sender, address = self.packets.pop(0)
                if address in self.talks:
                    self.talks[address].hear(packet, sender, self.now)


class Nets(unittest.TestCase):
    """Many nodes that know one of them at first."""

    def test_found(self) -> None:
        """Each node finds others, and a peer that one announced is found by another one far away."""
        net = Net(60)
        net.run(60.0)
        talks = list(net.talks.values())
        self.assertGreater(min(len(talk.table) for talk in talks), BUCKET)
        found: list[Address] = []
        talks[7].searches.append(Search(INFOHASH, 5555, lambda peers: None))
        net.run(30.0)
        talks[44].searches.append(Search(INFOHASH, 0, found.extend))
        net.run(30.0)
        self.assertEqual(set(found), {("10.0.0.8", 5555)})

    def test_first_nodes(self) -> None:
        """A first node whose address comes later is asked at once, also where one that came before doesn't answer."""
        net = Net(1)
        new = net.talks[("10.0.0.2", 6881)] = Talk(net.sender(("10.0.0.2", 6881)), [("10.0.0.99", 6881)], ONE)
        net.run(0.3)
        self.assertEqual(len(new.table), 0)
        new.begin_at(("10.0.0.1", 6881), net.now)
        net.run(0.1)
        self.assertEqual(len(new.table), 1)

    def test_lost(self) -> None:
        """A first node whose answer doesn't come is asked again after a second, and then less and less often."""
        sent: list[float] = []
        talk = Talk(lambda packet, address: sent.append(now), [("10.0.0.1", 1)], ONE)
        for tenth in range(100):
            now = tenth / 10
            talk.tick(now)
        self.assertEqual(sent, [0.0, 1.0, 3.0, 7.0])

    def test_search_goes_on(self) -> None:
        """A search that began at one node goes on at another one that becomes known, though the first one hasn't answered."""
        sent: list[tuple[bytes, Address]] = []
        talk = Talk(lambda packet, address: sent.append((packet, address)), [], ONE)
        talk.searches.append(Search(INFOHASH, 0, lambda peers: None))
        for number in (1, 2):
            talk.table.answered(Contact(id_of(number), ("10.0.0.1", number)), 0.1 * number)
            talk.tick(0.1 * number)
        self.assertEqual([address for packet, address in sent if b"9:get_peers" in packet], [("10.0.0.1", 1), ("10.0.0.1", 2)])

    def test_two(self) -> None:
        """Of two nodes that know each other alone, one finds the peer that the other one announces to it."""
        net = Net(2)
        talks, found = list(net.talks.values()), list[Address]()
        talks[0].searches.append(Search(INFOHASH, 5555, lambda peers: None))
        talks[1].searches.append(Search(INFOHASH, 0, found.extend))
        net.run(10.0)
        self.assertEqual(set(found), {("10.0.0.1", 5555)})

    def test_wrong_token(self) -> None:
        """An announce with no token of ours is refused, by the number of BEP 5, and isn't kept."""
        sent: list[bytes] = []
        talk = Talk(lambda packet, address: sent.append(packet), [])
        talk.hear(spell_query(Query(b"aa", Method.ANNOUNCE_PEER, ONE, INFOHASH, b"nonsense", 6881)), ("127.0.0.1", 5), 1.0)
        self.assertIn(b"1:eli203e", sent[0])
        self.assertEqual(talk.store.peers_of(INFOHASH, 1.0), [])

    def test_flood(self) -> None:
        """Queries without end are answered within the bounds, and strange answers change nothing."""
        sent: list[bytes] = []
        talk = Talk(lambda packet, address: sent.append(packet), [])
        for number in range(5000):
            talk.hear(spell_query(Query(b"aa", Method.PING, random.Random(number).randbytes(20))), (f"127.0.{number % 99}.1", 5), 1.0)
            talk.hear(spell_answer(Answer(number.to_bytes(4, "big"), ONE, [], [("10.0.0.1", 1)])), ("127.0.0.1", 5), 1.0)
        self.assertLess(len(sent), 300)
        self.assertEqual(len(talk.table), 0)

    def test_liars(self) -> None:
        """Nodes that name ever nearer ones, without end, end no lookup late: its queries and its memory are bounded."""
        chance, lookup = random.Random(1), Lookup(INFOHASH, ONE, wants_peers=True)
        lookup.add([Contact(chance.randbytes(20), ("10.0.0.1", 1))])
        while not lookup.is_done:
            contact = lookup.next(0.0)
            assert contact is not None
            near = [Contact(INFOHASH[:19] + chance.randbytes(1), (f"10.{chance.randrange(256)}.0.1", 1)) for _ in range(8)]
            near += [Contact(INFOHASH[:16] + chance.randbytes(4), ("8.8.8.8", 1)) for _ in range(8)]
            lookup.answered(contact, Answer(b"", contact.node_id, near, [(f"10.0.0.{number}", 1) for number in range(100)]))
        self.assertLessEqual(lookup.queries, MOST_QUERIES)
        self.assertLessEqual(len(lookup.candidates), MOST_CANDIDATES + MOST_QUERIES)
        self.assertLessEqual(len(lookup.peers), 400)
        self.assertLessEqual(sum(node.contact.address[0] == "8.8.8.8" for node in lookup.candidates.values()), 2)

    def test_slow(self) -> None:
        """Nodes that take longer than a second hold up no others, and their answers are taken all the same."""
        lookup = Lookup(bytes(20), ONE, wants_peers=True)
        lookup.add([Contact(id_of(number), ("127.0.0.1", number)) for number in range(1, 20)])
        asked = [lookup.next(0.0) for _ in range(AT_ONCE)]
        self.assertIsNone(lookup.next(SLOW))
        asked += [lookup.next(SLOW + 0.1) for _ in range(AT_ONCE)]
        self.assertIsNone(lookup.next(SLOW + 0.2))
        asked.append(lookup.next(2 * SLOW + 0.2))
        self.assertEqual([contact and contact.node_id for contact in asked], [id_of(number) for number in range(1, 10)])
        lookup.answered(Contact(id_of(1), ("127.0.0.1", 1)), Answer(b"", id_of(1), peers=[("10.0.0.1", 1)]))
        self.assertEqual(lookup.peers, {("10.0.0.1", 1)})

    def test_other_number(self) -> None:
        """A node that answers with another number than it was named by isn't announced to."""
        lookup = Lookup(INFOHASH, ONE, wants_peers=True)
        lookup.add([Contact(id_of(1), ("127.0.0.1", 1)), Contact(id_of(2), ("127.0.0.1", 2))])
        for contact in (lookup.next(0.0), lookup.next(0.0)):
            assert contact is not None
            lookup.answered(contact, Answer(b"", id_of(1), token=b"token"))
        self.assertTrue(lookup.is_done)
        self.assertEqual([contact.node_id for contact, _ in lookup.keepers()], [id_of(1)])


class BySockets(unittest.TestCase):
    """Three nodes on the loopback interface."""

    def test_found(self) -> None:
        first = Node("127.0.0.1", 0, [])
        others = [Node("127.0.0.1", 0, [("127.0.0.1", first.port)]) for _ in range(2)]
        for node in (first, *others):
            self.addCleanup(node.close)
            node.start()
        came = threading.Event()
        others[0].search(INFOHASH, 4444, lambda peers: None)
        others[1].search(INFOHASH, 0, lambda peers: came.set() if ("127.0.0.1", 4444) in peers else None)
        self.assertTrue(came.wait(60))

    def test_ends(self) -> None:
        """The end waits for no packet and no tick."""
        node = Node("127.0.0.1", 0, [])
        with patch("fetch.dht.node.TICK", 30.0), patch("fetch.dht.node.LAST_SECONDS", 20.0):
            node.start()
            node.close()
        self.assertFalse(node._thread.is_alive())


if __name__ == "__main__":
    unittest.main()
