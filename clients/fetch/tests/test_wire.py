"""Messages, by the bytes that BEP 3, BEP 6, BEP 10 and BEP 54 name."""

from __future__ import annotations

import random
import unittest

from fetch.extended import Extension, read_dont_have, read_hello, spell_dont_have, spell_hello
from fetch.wire import Handshake, Inbound, Message, WireFault, block_of, numbers_of, read_handshake, spell, spell_bitfield, spell_block

INFOHASH, PEER_ID = bytes(range(20)), b"-PP0000-abcdefghijkl"


class Spelled(unittest.TestCase):
    """What is sent."""

    def test_messages(self) -> None:
        for data, spelled in (
            (spell(Message.CHOKE), "00000001 00"), (spell(Message.UNCHOKE), "00000001 01"), (spell(Message.INTERESTED), "00000001 02"),
            (spell(Message.NOT_INTERESTED), "00000001 03"), (spell(Message.HAVE, 258), "00000005 04 00000102"),
            (spell_bitfield(b"\xfe"), "00000002 05 fe"), (spell(Message.REQUEST, 1, 16384, 16384), "0000000d 06 00000001 00004000 00004000"),
            (spell_block(1, 16384, b"ab"), "0000000b 07 00000001 00004000 6162"),
            (spell(Message.CANCEL, 1, 2, 3), "0000000d 08 00000001 00000002 00000003"),
            (spell(Message.HAVE_ALL), "00000001 0e"), (spell(Message.HAVE_NONE), "00000001 0f"),
            (spell(Message.REJECT, 1, 2, 3), "0000000d 10 00000001 00000002 00000003"),
        ):  # fmt: skip
            self.assertEqual(data, bytes.fromhex(spelled))

    def test_handshake(self) -> None:
        head = b"\x13BitTorrent protocol"
        self.assertEqual(Handshake(INFOHASH, PEER_ID).spell(), head + bytes(5) + b"\x10\0\x04" + INFOHASH + PEER_ID)
        self.assertEqual(Handshake(INFOHASH, PEER_ID, False, False).spell(), head + bytes(8) + INFOHASH + PEER_ID)
        self.assertEqual(read_handshake(head + b"\xff" * 8 + INFOHASH + PEER_ID), Handshake(INFOHASH, PEER_ID, True, True, True))
        self.assertFalse(read_handshake(head + b"\xff" * 7 + b"\xfb" + INFOHASH + PEER_ID).is_fast)
        self.assertFalse(read_handshake(head + b"\xff" * 5 + b"\xef\xff\xff" + INFOHASH + PEER_ID).is_extended)

    def test_extended(self) -> None:
        """Each side says its own number for a message, and is told it by that."""
        self.assertEqual(spell_hello([Extension.DONT_HAVE]), b"\0\0\0\x28\x14\0d1:md11:lt_donthavei7ee1:v9:piecepicke")
        self.assertEqual(spell_dont_have(3, 258), bytes.fromhex("00000006 14 03 00000102"))
        for told, number in ((b"d1:md11:lt_donthavei9eee", 9), (b"d1:md6:ut_pexi1eee", 0), (b"d1:v2:lte", 0), (b"d1:md11:lt_donthavei256eee", 0)):
            self.assertEqual(read_hello(memoryview(told)).number(Extension.DONT_HAVE), number, told)
        for wrong in (b"", b"le", b"d1:mi1ee", b"d1:md11:lt_donthavei9ee"):
            with self.subTest(wrong), self.assertRaises(WireFault):
                read_hello(memoryview(wrong))
        self.assertEqual(read_dont_have(memoryview(bytes.fromhex("00000102"))), 258)
        with self.assertRaises(WireFault):
            read_dont_have(memoryview(b"abc"))


class Received(unittest.TestCase):
    """What comes, however it is cut."""

    STREAM = bytes.fromhex("00000001 00" "00000000" "00000005 04 00000102" "0000000b 07 00000001 00004000 6162" "00000001 63")
    MESSAGES = [(0, b""), (4, bytes.fromhex("00000102")), (7, bytes.fromhex("00000001 00004000 6162")), (0x63, b"")]

    def test_cuts(self) -> None:
        chance = random.Random(4)
        handshake = Handshake(INFOHASH, PEER_ID).spell()
        for _ in range(300):
            inbound, data, found, got = Inbound(100), handshake + self.STREAM, [], None
            while data:
                count = chance.randint(1, len(data))
                part, data = data[:count], data[count:]
                if got is None:
                    got = inbound.handshake(part)
                    part = b""
                if got is not None:
                    found += [(kind, bytes(payload)) for kind, payload in inbound.messages(part)]
            self.assertEqual((got, found), (Handshake(INFOHASH, PEER_ID), self.MESSAGES))

    def test_foreign(self) -> None:
        """Another protocol is known by its first bytes."""
        for data in (b"GET / HTTP/1.1", b"\x14", b"\x13BitTorrent protocoL", b"\x00"):
            with self.subTest(data), self.assertRaises(WireFault):
                Inbound(100).handshake(data)

    def test_too_long(self) -> None:
        with self.assertRaises(WireFault):
            list(Inbound(100).messages(bytes.fromhex("ffffffff 07")))
        # A bitfield of a million pieces has 125,000 bytes.
        self.assertEqual(list(Inbound(1000000).messages((125001).to_bytes(4, "big"))), [])

    def test_lengths(self) -> None:
        for message, payload in ((Message.HAVE, b"123"), (Message.CHOKE, b"1"), (Message.REQUEST, bytes(11)), (Message.REJECT, bytes(13))):
            with self.subTest(message), self.assertRaises(WireFault):
                numbers_of(message, memoryview(payload))
        with self.assertRaises(WireFault):
            block_of(memoryview(b"1234567"))


if __name__ == "__main__":
    unittest.main()
