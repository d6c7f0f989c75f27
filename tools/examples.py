#!/usr/bin/env python3
"""Writes the worked examples of crates/bt_history and the texts of them in crates/bt_picker_tests from script lines.

Each example is a torrent, a number of workers and lines `CALL = REPLY`, as a person writes them from the rules; nothing here runs the
picker. A plain model of the rules (tools/model.py) judges them first, and names the line that is wrong. The definitions in specs/ judge them
too: `worked_examples` proves each legal, and each wrong reply not allowed. The same lines are the text of a test of `audit`. Run it from
the top of the repository after an edit, then `rt tidy` in bt_history, which lays the files out.
"""

from __future__ import annotations

import copy
import re
from collections.abc import Iterable
from dataclasses import astuple
from typing import Any

from model import LOSSES, Model, Refused, Rules, Torrent

ABC = "a9993e364706816aba3e25717850c26c9cd0d89d"  # SHA-1 of abc
A = "86f7e437faa5a7fce15d1ddcb9eaeaea377667b8"  # of a
MILLION = "34aa973cd4c4daa4f61eeb2bdbad27316534016f"  # of a million a
DIGESTS = {"abc": ABC, "a": A, "million": MILLION}

TORRENTS: dict[str, tuple[int, int, list[str]]] = {  # name: piece length, total, hashes
    "short_last": (3, 7, [ABC, ABC, A]),
    "one_piece": (3, 3, [ABC]),
    "two_pieces": (3, 6, [ABC, ABC]),
    "two_blocks": (32768, 65536, [ABC, ABC]),
    "many_blocks": (1000000, 1000000, [MILLION]),
    "four_pieces": (3, 12, [ABC, ABC, ABC, ABC]),
    "four_pairs": (32768, 131072, [ABC, ABC, ABC, ABC]),
    "two_pairs_and_a_byte": (32768, 65537, [ABC, ABC, A]),
}


def enters(worker: int, bits: str) -> list[str]:
    return [f"{worker} join = joined", f"{worker} bits {bits} = noted yes", f"{worker} unchoke = quiet"]


def checked(worker: int, piece: int, hexadecimal: str, reply: str = "had") -> list[str]:
    return [f"{worker} block {piece} 0 {hexadecimal} = completed", f"{worker} settle {piece} {hexadecimal} = {reply}"]


def blocks_asked(count: int) -> list[str]:
    return enters(0, "80") + [f"0 next 0 = request 0 {16384 * k} 16384" for k in range(count)]


FULL_PIPE = blocks_asked(5) + ["0 next 0 = pipefull"]
ENDGAME = enters(0, "80") + enters(1, "80") + ["0 next 0 = request 0 0 3", "1 next 0 = request 0 0 3"]
TWO_ASKED = ["0 next 0 = request 0 0 16384", "0 next 0 = request 0 16384 16384", "0 next 0 = pipefull"]

RARE_FIRST = enters(0, "e0") + ["1 join = joined", "1 bits c0 = noted yes", "0 next 1 = request 2 0 1"]
RAREST_FIRST = ["0 join = joined", "0 bits e0 = noted yes", "1 join = joined", "1 bits 40 = noted yes", "0 unchoke = quiet",
                "0 next 2 = request 2 0 1"] + checked(0, 2, "61")

TWO_BEGUN = enters(0, "f0") + enters(1, "80") + enters(2, "c0") + ["2 next 1 = request 1 0 16384", "1 next 0 = request 0 0 16384"]
PAIR_ASKED = enters(0, "f0") + enters(1, "c0") + [
    "1 next 0 = request 0 0 16384", "1 next 1 = request 0 16384 16384", "1 next 1 = request 1 0 16384"]

# of the examples that don't go by the usual ones: depth, random, and where they matter askers and deepest, open, and rush and shown
RULES: dict[str, tuple[int, ...]] = {
    "depth_two": (2, 1),
    "block_in_flight_takes_room": (1, 1),
    "deep_pipe": (64, 1),
    "rarest_from_the_start": (5, 0),
    "second_piece_at_random": (5, 2),
    "rarest_after_two_pieces": (5, 2),
    "one_asker": (5, 1, 1, 64),
    "two_askers": (5, 1, 2, 64),
    "no_depth_may_be_told": (5, 1, 1024, 0),
    "greatest_depth": (5, 1, 1024, 9999),
    "haves_are_counted": (5, 0),
    "two_levels": (5, 0),
    "in_order_told_off": (5, 0),
    "want_after_levels": (5, 0),
    "any_begun_piece_goes_on": (5, 0),
    "rarest_while_few_are_open": (5, 0, 1024, 64, 1),
    "as_many_open_as_may_be": (5, 0, 1024, 64, 2),
    "rarest_of_the_open_goes_on": (5, 0, 1024, 64, 1),
    "first_piece_before_rarity": (5, 1, 1024, 64, 8),
    "rarest_of_the_begun_at_random": (5, 2, 1024, 64, 8),
    "rarest_once_enough_are_had": (5, 1, 1024, 64, 8),
    "open_counted_over_all_levels": (5, 0, 1024, 64, 1),
    "wholly_requested_pieces_are_not_open": (5, 0, 1024, 64, 1),
    "released_block_opens_its_piece": (5, 0, 1024, 64, 1),
    "held_block_opens_its_piece": (5, 0, 1024, 64, 1),
    "held_pieces_are_not_open": (5, 0, 1024, 64, 1),
    "unwanted_pieces_are_not_open": (5, 0, 1024, 64, 1),
    "none_of_the_open_is_shown": (5, 0, 1024, 64, 1),
    "in_order_however_many_are_open": (5, 0, 1024, 64, 1),
    "endgame_at_few": (5, 1, 1024, 64, 0, 1, False),
    "endgame_at_none": (5, 1, 1024, 64, 0, 0, False),
    "endgame_over_what_is_shown": (5, 1, 1024, 64, 0, 4096, True),
    "shown_piece_holds_up_endgame": (5, 1, 1024, 64, 0, 4096, True),
    "lower_level_is_awaited_too": (5, 1, 1024, 64, 0, 4096, True),
    "window_comes_in_order": (5, 0),
    "window_told_anew": (5, 0),
    "lacked_is_asked_elsewhere": (3, 1),
    "lack_makes_another_piece_rarest": (5, 0),
    "lack_begins_endgame": (5, 1, 1024, 64, 0, 4096, True),
    "late_stays_in_the_pipe": (2, 1),
    "late_in_spite_of_one_asker": (5, 1, 1, 64),
    "spent_piece_is_passed_by": (5, 0),
    "spent_open_piece_is_passed_by": (5, 0, 1024, 64, 1),
}

EXAMPLES: dict[str, tuple[str, int, list[str]]] = {  # name: torrent, workers, lines
    "first_request": ("short_last", 1, enters(0, "e0") + ["0 next 5 = request 2 0 1"]),
    "another_first_request": ("short_last", 1, enters(0, "e0") + ["0 next 5 = request 0 0 3"]),
    "one_peer_to_the_end": ("short_last", 1, enters(0, "e0") + [
        "0 next 5 = request 2 0 1", "0 next 0 = request 0 0 3", "0 next 0 = request 1 0 3", "0 next 0 = idle"]
        + checked(0, 2, "61") + checked(0, 0, "616263") + checked(0, 1, "616263") + ["0 next 0 = nothing"]),
    "rarest_first": ("short_last", 2, RAREST_FIRST + ["0 next 1 = request 0 0 3"]),
    "full_pipe": ("many_blocks", 2, FULL_PIPE),
    "choke_frees": ("many_blocks", 2, FULL_PIPE + ["0 choke = quiet"] + enters(1, "80") + [
        "1 next 0 = request 0 0 16384", "0 next 0 = choked"]),
    "cancel_in_endgame": ("one_piece", 2, ENDGAME + [
        "0 block 0 0 616263 = completed", "1 next 0 = cancel 0 0 3", "1 next 0 = idle", "0 settle 0 616263 = had",
        "1 next 0 = nothing", "1 block 0 0 616263 = dropped"]),
    "no_double_before_endgame": ("two_pieces", 2, enters(0, "c0") + ["0 next 0 = request 0 0 3"] + enters(1, "80") + [
        "1 next 0 = idle"]),
    "double_outlasts_endgame": ("two_pieces", 4, enters(0, "80") + enters(2, "40") + enters(1, "80") + [
        "0 next 0 = request 0 0 3", "2 next 0 = request 1 0 3", "1 next 0 = request 0 0 3", "2 choke = quiet"]
        + enters(3, "80") + ["3 next 0 = idle", "0 block 0 0 616263 = completed", "1 next 0 = cancel 0 0 3"]),
    "failed_check": ("short_last", 1, enters(0, "e0") + ["0 next 0 = request 0 0 3"] + checked(0, 0, "616264", "failed") + [
        "0 next 0 = request 0 0 3", "0 settle 0 616264 = refused NotWaiting"]),
    "failed_check_in_endgame": ("one_piece", 2, ENDGAME + checked(0, 0, "616264", "failed") + [
        "1 next 0 = cancel 0 0 3", "1 next 0 = request 0 0 3"]),
    "held_block_dropped": ("short_last", 1, [
        "0 join = joined", "0 block 2 0 61 = completed", "0 block 2 0 61 = dropped"]),
    "block_by_block": ("two_blocks", 1, [
        "0 join = joined", "0 block 0 0 X = stored", "0 block 0 0 X = dropped", "0 block 0 16384 X = completed"]),
    "refusals": ("short_last", 2, [
        "0 leave = refused NotJoined", "1 block 9 9 61 = refused NotJoined", "0 join = joined", "0 join = refused AlreadyJoined",
        "0 have 0 = noted yes", "0 bits e0 = refused LateBits", "0 have 3 = refused NoSuchPiece",
        "0 block 3 1 61 = refused NoSuchPiece", "0 block 0 1 6263 = refused NoSuchBlock", "0 block 0 0 6162 = refused WrongLength",
        "0 settle 0 61 = refused NotWaiting", "0 settle 3 61 = refused NoSuchPiece", "0 leave = quiet", "0 join = joined",
        "0 bits e0 = noted yes", "1 join = joined", "1 bits 00 = noted no", "1 unchoke = quiet", "1 next 0 = nothing"]),
    "wrong_count": ("short_last", 1, ["0 join = joined", "0 flags 0000 = refused WrongCount", "0 bits e0 = noted yes"]),
    "stale_verdict": ("short_last", 1, [
        "0 join = joined"] + checked(0, 0, "616264", "failed") + [
        "0 block 0 0 616263 = completed", "0 settle 0 616264 = refused Stale", "0 settle 0 616263 = had",
        "0 settle 0 616263 = refused NotWaiting", "0 settle 9 61 = refused NoSuchPiece", "0 choke = quiet", "0 leave = quiet"]),
    "random_first_piece": ("short_last", 2, enters(0, "e0") + ["1 join = joined", "1 bits c0 = noted yes", "0 next 1 = request 1 0 3"]),
    "rare_first_piece_too": ("short_last", 2, RARE_FIRST),
    "strict_priority": ("two_blocks", 1, enters(0, "c0") + [
        "0 next 0 = request 0 0 16384", "0 next 1 = request 0 16384 16384", "0 next 1 = request 1 0 16384"]),
    "gone_peer_not_counted": ("short_last", 3, [
        "0 join = joined", "0 bits e0 = noted yes", "1 join = joined", "1 bits 80 = noted yes", "2 join = joined",
        "2 bits 40 = noted yes", "1 leave = quiet", "0 unchoke = quiet", "0 next 2 = request 2 0 1"]
        + checked(0, 2, "61") + ["0 next 1 = request 0 0 3"]),
    "rejoin_in_endgame": ("one_piece", 2, ENDGAME + [
        "0 leave = quiet", "0 join = joined", "0 next 0 = choked"] + checked(1, 0, "616264", "failed") + [
        "0 bits 80 = noted yes", "0 unchoke = quiet", "0 next 0 = request 0 0 3"]),
    "depth_two": ("many_blocks", 1, blocks_asked(2) + ["0 next 0 = pipefull"]),
    "deep_pipe": ("many_blocks", 1, blocks_asked(8)),
    "rarest_from_the_start": ("short_last", 2, RARE_FIRST),
    "second_piece_at_random": ("short_last", 2, RAREST_FIRST + ["0 next 1 = request 1 0 3"]),
    "rarest_after_two_pieces": ("four_pieces", 2, enters(0, "f0") + [
        "1 join = joined", "1 bits 30 = noted yes", "0 next 0 = request 0 0 3"] + checked(0, 0, "616263") + [
        "0 next 2 = request 2 0 3"] + checked(0, 2, "616263") + ["0 next 3 = request 1 0 3"]),
    "wants": ("short_last", 2, ["1 want 40 = quiet"] + enters(0, "e0") + [
        "0 next 0 = request 1 0 3", "0 next 0 = idle", "0 want a0 = quiet", "0 next 0 = request 0 0 3", "0 want 00 = quiet",
        "0 next 0 = nothing"] + checked(0, 1, "616263") + [
        "0 want 40 = quiet", "0 have 2 = noted no", "1 wants 0000 = refused WrongCount"]),
    "endgame_of_the_wanted": ("two_pieces", 2, enters(0, "c0") + enters(1, "c0") + [
        "0 next 0 = request 0 0 3", "1 want 80 = quiet", "1 next 0 = request 0 0 3", "1 want c0 = quiet", "0 next 0 = request 1 0 3"]),
    "want_before_the_bits": ("short_last", 1, ["0 join = joined", "0 want 40 = quiet", "0 bits e0 = noted yes"]),
    "asked_stays_asked": ("two_pieces", 2, enters(0, "c0") + enters(1, "c0") + [
        "0 next 0 = request 0 0 3", "0 want 40 = quiet", "0 next 0 = request 1 0 3", "0 want c0 = quiet", "1 next 0 = request 0 0 3",
        "0 block 0 0 616263 = completed", "1 next 0 = cancel 0 0 3"]),
    "released_is_asked_elsewhere": ("two_pieces", 2, enters(0, "c0") + enters(1, "80") + [
        "0 next 0 = request 0 0 3", "1 next 0 = idle", "0 release 0 0 = quiet", "1 next 0 = request 0 0 3", "0 next 0 = request 1 0 3"]),
    "released_in_endgame": ("one_piece", 2, ENDGAME + [
        "0 release 0 0 = quiet", "1 next 0 = idle", "1 block 0 0 616263 = completed", "0 next 0 = idle", "1 settle 0 616263 = had",
        "0 next 0 = nothing"]),
    "released_piece_is_unbegun": ("two_blocks", 1, enters(0, "c0") + [
        "0 next 0 = request 0 0 16384", "0 release 0 0 = quiet", "0 next 1 = request 1 0 16384", "0 next 0 = request 1 16384 16384",
        "0 next 0 = request 0 0 16384"]),
    "released_is_asked_again": ("one_piece", 1, enters(0, "80") + [
        "0 next 0 = request 0 0 3", "0 next 0 = idle", "0 release 0 0 = quiet", "0 next 0 = request 0 0 3"]),
    "released_arrives_after_all": ("two_blocks", 1, enters(0, "c0") + [
        "0 next 0 = request 0 0 16384", "0 release 0 0 = quiet", "0 block 0 0 X = stored", "0 next 0 = request 0 16384 16384"]),
    "late_is_asked_elsewhere": ("two_pieces", 2, enters(0, "c0") + enters(1, "80") + [
        "0 next 0 = request 0 0 3", "1 next 0 = idle", "0 late 0 0 = quiet", "1 next 0 = request 0 0 3", "0 next 0 = request 1 0 3",
        "1 block 0 0 616263 = completed", "0 next 0 = cancel 0 0 3"]),
    "late_holds_up_endgame": ("two_pieces", 3, enters(0, "c0") + enters(1, "40") + [
        "0 next 0 = request 0 0 3", "1 next 1 = request 1 0 3", "0 late 0 0 = quiet", "0 next 0 = idle"] + enters(2, "80") + [
        "2 next 0 = request 0 0 3", "0 next 0 = request 1 0 3"]),
    "late_in_spite_of_one_asker": ("one_piece", 3, enters(0, "80") + enters(1, "80") + enters(2, "80") + [
        "0 next 0 = request 0 0 3", "1 next 0 = idle", "0 late 0 0 = quiet", "1 next 0 = request 0 0 3", "0 late 0 0 = quiet",
        "2 next 0 = idle", "1 late 0 0 = quiet", "2 next 0 = request 0 0 3"]),
    "late_no_more": ("two_pieces", 2, enters(0, "c0") + enters(1, "80") + [
        "0 next 0 = request 0 0 3", "0 late 0 0 = quiet"] + checked(0, 0, "616264", "failed") + [
        "0 next 0 = request 0 0 3", "1 next 0 = idle", "0 late 0 0 = quiet", "0 choke = quiet", "0 unchoke = quiet",
        "0 next 0 = request 0 0 3", "1 next 0 = idle"]),
    "depth_of_one": ("many_blocks", 1, enters(0, "80") + [
        "0 depth 1 = quiet", "0 next 0 = request 0 0 16384", "0 next 0 = pipefull"]),
    "deepened": ("many_blocks", 1, FULL_PIPE + [
        "0 depth 7 = quiet", "0 next 0 = request 0 81920 16384", "0 next 0 = request 0 98304 16384", "0 next 0 = pipefull"]),
    "depth_outlasts_a_choke": ("many_blocks", 1, enters(0, "80") + ["0 depth 2 = quiet"] + TWO_ASKED + [
        "0 choke = quiet", "0 unchoke = quiet"] + TWO_ASKED),
    "depth_goes_with_its_peer": ("many_blocks", 1, enters(0, "80") + [
        "0 depth 1 = quiet", "0 next 0 = request 0 0 16384", "0 next 0 = pipefull", "0 leave = quiet"] + enters(0, "80") + [
        "0 next 0 = request 0 0 16384", "0 next 0 = request 0 16384 16384"]),
    "smaller_depth": ("many_blocks", 1, blocks_asked(3) + [
        "0 depth 2 = quiet", "0 next 0 = pipefull", "0 block 0 0 X = stored", "0 next 0 = pipefull", "0 block 0 16384 X = stored",
        "0 next 0 = request 0 49152 16384", "0 next 0 = pipefull"]),
    "one_asker": ("one_piece", 2, enters(0, "80") + enters(1, "80") + [
        "0 next 0 = request 0 0 3", "1 next 0 = idle", "0 release 0 0 = quiet", "1 next 0 = request 0 0 3", "0 next 0 = idle"]),
    "two_askers": ("one_piece", 3, ENDGAME + enters(2, "80") + [
        "2 next 0 = idle", "1 choke = quiet", "2 next 0 = request 0 0 3"]),
    "no_depth_may_be_told": ("short_last", 1, ["0 join = joined", "0 depth 1 = refused WrongDepth"]),
    "greatest_depth": ("short_last", 1, ["0 join = joined", "0 depth 4097 = refused WrongDepth", "0 depth 4096 = quiet"]),
    "refusals_of_release_and_depth": ("short_last", 2, [
        "0 release 0 0 = refused NotJoined", "0 depth 3 = refused NotJoined", "0 join = joined", "0 bits e0 = noted yes",
        "0 unchoke = quiet", "0 release 0 0 = refused NotAsked", "0 next 0 = request 0 0 3"] + enters(1, "80") + [
        "1 release 0 0 = refused NotAsked", "0 release 0 1 = refused NotAsked", "0 release 9 0 = refused NotAsked",
        "0 depth 0 = refused WrongDepth", "0 depth 65 = refused WrongDepth", "0 depth 64 = quiet", "0 release 0 0 = quiet",
        "0 release 0 0 = refused NotAsked"]),
    "haves_after_a_bitfield": ("short_last", 1, [
        "0 join = joined", "0 bits 80 = noted yes", "0 haves 40 = noted yes", "0 unchoke = quiet", "0 next 0 = request 1 0 3"]
        + checked(0, 1, "616263") + ["0 next 0 = request 0 0 3", "0 next 0 = idle"]),
    "haves_after_a_have": ("short_last", 1, [
        "0 join = joined", "0 have 2 = noted yes", "0 haves 80 = noted yes", "0 bits e0 = refused LateBits", "0 unchoke = quiet",
        "0 next 0 = request 2 0 1", "0 next 0 = request 0 0 3", "0 next 0 = idle"]),
    "haves_of_none": ("short_last", 2, [
        "0 haves e0 = refused NotJoined", "0 join = joined", "0 shown 0000 = refused WrongCount", "0 haves 00 = noted no",
        "0 bits e0 = refused LateBits", "0 unchoke = quiet", "0 next 0 = nothing", "1 join = joined", "1 bits 80 = noted yes",
        "1 haves 00 = noted yes", "1 unchoke = quiet", "1 next 0 = request 0 0 3"]),
    "haves_are_counted": ("short_last", 2, enters(0, "e0") + [
        "1 join = joined", "1 bits 80 = noted yes", "1 haves 20 = noted yes", "0 next 0 = request 1 0 3"]),
    "two_levels": ("four_pieces", 3, ["2 levels 2772 = quiet"] + enters(0, "f0") + enters(1, "c0") + enters(2, "70") + [
        "0 next 0 = request 2 0 3", "1 next 0 = request 1 0 3", "2 next 0 = request 3 0 3", "0 next 0 = request 0 0 3",
        "1 next 0 = request 0 0 3"]),
    "raised_in_mid_download": ("two_blocks", 1, enters(0, "c0") + [
        "0 next 0 = request 0 0 16384", "0 level 1 5 = quiet", "0 next 0 = request 1 0 16384", "0 next 0 = request 1 16384 16384",
        "0 next 0 = request 0 16384 16384"]),
    "streaming": ("four_pieces", 1, enters(0, "f0") + [
        "0 inorder yes = quiet", "0 level 2 5 = quiet", "0 next 0 = request 2 0 3", "0 next 0 = request 0 0 3",
        "0 level 2 4 = quiet", "0 level 3 5 = quiet", "0 next 0 = request 3 0 3", "0 next 0 = request 1 0 3"]),
    "earlier_piece_in_order": ("two_blocks", 1, enters(0, "40") + [
        "0 next 0 = request 1 0 16384", "0 inorder yes = quiet", "0 have 0 = noted yes", "0 next 0 = request 0 0 16384",
        "0 next 0 = request 0 16384 16384", "0 next 0 = request 1 16384 16384"]),
    "in_order_told_off": ("four_pieces", 2, enters(0, "f0") + [
        "1 join = joined", "1 bits c0 = noted yes", "0 inorder yes = quiet", "0 next 0 = request 0 0 3", "1 inorder no = quiet",
        "0 next 0 = request 2 0 3"]),
    "peer_of_low_levels": ("four_pieces", 2, ["1 levels 7711 = quiet"] + enters(0, "f0") + enters(1, "30") + [
        "1 next 0 = request 2 0 3", "0 next 0 = request 0 0 3", "1 next 0 = request 3 0 3", "0 next 0 = request 1 0 3",
        "1 next 0 = idle"]),
    "unwanted_by_level": ("two_pieces", 1, enters(0, "c0") + [
        "0 level 0 0 = quiet", "0 next 0 = request 1 0 3", "0 next 0 = idle", "0 level 0 4 = quiet", "0 next 0 = request 0 0 3",
        "0 levels 00 = quiet", "0 next 0 = nothing"]),
    "levels_of_none": ("short_last", 1, [
        "0 levels 000 = quiet", "0 join = joined", "0 bits e0 = noted no", "0 unchoke = quiet", "0 next 0 = nothing",
        "0 level 2 1 = quiet", "0 next 0 = request 2 0 1", "0 next 0 = idle"]),
    "want_after_levels": ("four_pieces", 2, ["0 levels 7115 = quiet"] + enters(0, "f0") + [
        "1 join = joined", "1 bits 10 = noted yes", "0 want 70 = quiet", "0 next 0 = request 1 0 3", "0 next 0 = request 2 0 3",
        "0 level 0 3 = quiet", "0 next 0 = request 3 0 3", "0 next 0 = request 0 0 3"]),
    "level_before_the_bits": ("two_pieces", 1, [
        "0 join = joined", "0 level 1 7 = quiet", "0 bits c0 = noted yes", "0 unchoke = quiet", "0 next 0 = request 1 0 3",
        "0 next 0 = request 0 0 3"]),
    "endgame_of_all_levels": ("two_pieces", 3, ["2 levels 71 = quiet"] + enters(0, "c0") + enters(1, "c0") + enters(2, "c0") + [
        "0 next 0 = request 0 0 3", "1 next 0 = request 1 0 3", "2 next 0 = request 1 0 3", "2 next 0 = request 0 0 3"]),
    "asked_outlasts_its_level": ("two_pieces", 1, enters(0, "c0") + [
        "0 next 0 = request 0 0 3", "0 level 0 0 = quiet"] + checked(0, 0, "616263") + ["0 next 0 = request 1 0 3"]),
    "refusals_of_levels": ("short_last", 2, [
        "0 level 3 4 = refused NoSuchPiece", "0 level 0 8 = refused WrongLevel", "0 level 9 9 = refused NoSuchPiece",
        "1 levels 44 = refused WrongCount", "1 levels 4444 = refused WrongCount", "1 levels 484 = refused WrongLevel",
        "1 levels 88 = refused WrongCount", "1 levels 470 = quiet", "1 level 2 7 = quiet", "0 inorder yes = quiet",
        "0 inorder no = quiet"] + enters(0, "e0") + [
        "0 next 0 = request 2 0 1", "0 next 0 = request 1 0 3", "0 next 0 = request 0 0 3"]),
    "any_begun_piece_goes_on": ("four_pairs", 3, TWO_BEGUN + ["0 next 2 = request 0 16384 16384", "0 next 2 = request 1 16384 16384"]),
    "rarest_while_few_are_open": ("four_pairs", 2, enters(0, "f0") + enters(1, "c0") + [
        "1 next 0 = request 0 0 16384", "0 next 2 = request 2 0 16384", "0 next 3 = request 2 16384 16384",
        "1 next 1 = request 0 16384 16384"]),
    "as_many_open_as_may_be": ("four_pairs", 3, TWO_BEGUN + ["0 next 2 = request 2 0 16384", "0 next 3 = request 2 16384 16384"]),
    "rarest_of_the_open_goes_on": ("four_pairs", 3, TWO_BEGUN + ["0 next 2 = request 1 16384 16384", "0 next 2 = request 2 0 16384"]),
    "first_piece_before_rarity": ("four_pairs", 2, enters(0, "f0") + [
        "1 join = joined", "1 bits 80 = noted yes", "0 next 0 = request 0 0 16384", "0 next 0 = request 0 16384 16384",
        "0 next 1 = request 1 0 16384"]),
    "rarest_of_the_begun_at_random": ("four_pairs", 3, TWO_BEGUN + [
        "0 next 3 = request 1 16384 16384", "0 next 3 = request 0 16384 16384", "0 next 3 = request 3 0 16384"]),
    "rarest_once_enough_are_had": ("two_pairs_and_a_byte", 2, enters(0, "e0") + enters(1, "80") + [
        "0 next 2 = request 2 0 1", "1 next 0 = request 0 0 16384"] + checked(0, 2, "61") + ["0 next 0 = request 1 0 16384"]),
    "open_counted_over_all_levels": ("four_pairs", 2, enters(0, "f0") + enters(1, "90") + [
        "1 next 0 = request 0 0 16384", "0 next 2 = request 2 0 16384", "0 level 3 5 = quiet", "1 next 0 = request 3 0 16384",
        "0 level 1 5 = quiet", "0 next 0 = request 3 16384 16384"]),
    "wholly_requested_pieces_are_not_open": ("four_pairs", 2, PAIR_ASKED + ["0 next 2 = request 2 0 16384"]),
    "released_block_opens_its_piece": ("four_pairs", 2, PAIR_ASKED + [
        "1 release 0 16384 = quiet", "0 next 2 = request 0 16384 16384"]),
    "held_block_opens_its_piece": ("four_pairs", 2, enters(0, "f0") + enters(1, "c0") + [
        "1 next 1 = request 1 0 16384", "1 block 0 0 X = stored", "0 next 2 = request 0 16384 16384"]),
    "held_pieces_are_not_open": ("four_pairs", 2, enters(0, "f0") + enters(1, "c0") + [
        "1 block 0 0 X = stored", "1 block 0 16384 X = completed", "1 next 1 = request 1 0 16384", "0 next 2 = request 2 0 16384"]),
    "unwanted_pieces_are_not_open": ("four_pairs", 3, TWO_BEGUN + ["1 level 0 0 = quiet", "0 next 2 = request 2 0 16384"]),
    "none_of_the_open_is_shown": ("four_pairs", 4, enters(0, "80") + enters(1, "c0") + enters(2, "30") + [
        "3 join = joined", "3 bits 10 = noted yes", "1 next 1 = request 1 0 16384", "0 next 0 = request 0 0 16384",
        "2 next 3 = request 2 0 16384"]),
    "in_order_however_many_are_open": ("four_pairs", 2, enters(0, "f0") + enters(1, "30") + [
        "1 next 2 = request 2 0 16384", "0 next 1 = request 1 0 16384", "0 inorder yes = quiet", "0 next 3 = request 0 0 16384",
        "0 next 3 = request 0 16384 16384", "0 next 3 = request 1 16384 16384"]),
    "endgame_at_few": ("two_pieces", 2, enters(0, "c0") + enters(1, "c0") + [
        "0 next 0 = request 0 0 3", "0 next 0 = request 1 0 3", "1 next 0 = request 0 0 3", "1 next 0 = idle",
        "0 block 0 0 616263 = completed", "1 next 0 = cancel 0 0 3", "1 next 0 = request 1 0 3"]),
    "endgame_at_none": ("one_piece", 2, enters(0, "80") + enters(1, "80") + [
        "0 next 0 = request 0 0 3", "1 next 0 = idle", "0 release 0 0 = quiet", "1 next 0 = request 0 0 3"]),
    "unshown_piece_holds_up_endgame": ("two_pieces", 2, enters(0, "80") + enters(1, "80") + [
        "0 next 0 = request 0 0 3", "1 next 0 = idle"]),
    "endgame_over_what_is_shown": ("two_pieces", 2, enters(0, "80") + enters(1, "80") + [
        "0 next 0 = request 0 0 3", "1 next 0 = request 0 0 3"]),
    "shown_piece_holds_up_endgame": ("two_pieces", 3, enters(0, "80") + enters(1, "80") + [
        "2 join = joined", "2 bits 40 = noted yes", "0 next 0 = request 0 0 3", "1 next 0 = idle", "2 leave = quiet",
        "1 next 0 = request 0 0 3"]),
    "lower_level_is_awaited_too": ("four_pieces", 3, ["2 levels 4710 = quiet"] + enters(0, "c0") + enters(1, "80") + [
        "0 next 0 = request 1 0 3", "1 next 0 = request 0 0 3", "0 next 0 = request 0 0 3", "2 join = joined", "2 bits 30 = noted yes",
        "1 have 1 = noted yes", "1 next 0 = idle", "2 unchoke = quiet", "2 next 0 = request 2 0 3", "1 next 0 = request 1 0 3"]),
    "slow_peer_gets_low_levels": ("four_pieces", 2, ["1 levels 7542 = quiet"] + enters(0, "f0") + [
        "0 reach 4 = quiet", "0 next 0 = request 2 0 3", "0 next 0 = request 3 0 3", "0 next 0 = idle", "0 reach 5 = quiet",
        "0 next 0 = request 1 0 3", "0 reach 7 = quiet", "0 next 0 = request 0 0 3"]),
    "reach_in_endgame": ("two_pieces", 3, ["2 levels 74 = quiet"] + enters(0, "c0") + enters(1, "c0") + [
        "1 reach 4 = quiet", "0 next 0 = request 0 0 3", "0 next 0 = request 1 0 3", "1 next 0 = request 1 0 3", "1 next 0 = idle"]),
    "reach_goes_with_its_peer": ("two_pieces", 1, [
        "0 join = joined", "0 reach 3 = quiet", "0 bits c0 = noted yes", "0 unchoke = quiet", "0 next 0 = idle", "0 leave = quiet"]
        + enters(0, "c0") + ["0 next 0 = request 0 0 3"]),
    "refusals_of_reach_and_order": ("short_last", 2, [
        "0 reach 3 = refused NotJoined", "0 reach 9 = refused NotJoined", "0 join = joined", "0 reach 8 = refused WrongLevel",
        "0 reach 0 = quiet", "0 reach 7 = quiet", "1 inorderfrom 9 = refused WrongLevel", "1 inorderfrom 8 = quiet",
        "1 inorderfrom 0 = quiet"]),
    "window_comes_in_order": ("four_pieces", 2, ["1 inorderfrom 5 = quiet", "0 levels 4455 = quiet"] + enters(0, "f0") + [
        "1 join = joined", "1 bits a0 = noted yes", "0 next 0 = request 2 0 3", "0 next 0 = request 3 0 3", "0 next 0 = request 1 0 3",
        "0 next 0 = request 0 0 3"]),
    "window_told_anew": ("four_pieces", 2, enters(0, "f0") + [
        "1 join = joined", "1 bits c0 = noted yes", "1 inorderfrom 5 = quiet", "0 inorder yes = quiet", "0 next 3 = request 0 0 3",
        "0 inorderfrom 8 = quiet", "0 next 3 = request 3 0 3"]),
    "lacked_is_asked_elsewhere": ("two_blocks", 2, enters(0, "c0") + [
        "0 next 0 = request 0 0 16384", "0 next 0 = request 0 16384 16384", "0 next 0 = request 1 0 16384", "0 next 0 = pipefull",
        "0 lack 0 = noted yes"] + enters(1, "c0") + [
        "1 next 0 = request 1 16384 16384", "1 next 0 = request 0 0 16384", "1 next 0 = request 0 16384 16384",
        "0 next 0 = request 1 16384 16384", "0 next 0 = idle", "0 block 0 0 X = stored", "1 next 0 = cancel 0 0 16384"]),
    "lack_makes_another_piece_rarest": ("short_last", 3, enters(0, "e0") + [
        "1 join = joined", "1 bits c0 = noted yes", "2 join = joined", "2 bits 80 = noted yes", "0 next 1 = request 2 0 1",
        "1 lack 0 = noted yes", "2 lack 0 = noted no", "0 next 1 = request 0 0 3"]),
    "lack_of_the_only_piece": ("one_piece", 1, enters(0, "80") + [
        "0 next 0 = request 0 0 3", "0 lack 0 = noted no", "0 next 0 = nothing", "0 have 0 = noted yes", "0 next 0 = request 0 0 3"]),
    "cancel_outlasts_a_lack": ("one_piece", 3, ENDGAME + enters(2, "80") + [
        "2 next 0 = request 0 0 3", "1 lack 0 = noted no", "0 block 0 0 616263 = completed", "2 lack 0 = noted no",
        "1 next 0 = nothing", "2 next 0 = cancel 0 0 3", "2 next 0 = nothing"]),
    "lack_begins_endgame": ("two_pieces", 3, enters(0, "80") + enters(1, "80") + [
        "2 join = joined", "2 bits 40 = noted yes", "0 next 0 = request 0 0 3", "1 next 0 = idle", "2 lack 1 = noted no",
        "1 next 0 = request 0 0 3"]),
    "refusals_of_lack": ("short_last", 2, [
        "0 lack 0 = refused NotJoined", "0 lack 9 = refused NotJoined", "0 join = joined", "0 lack 3 = refused NoSuchPiece",
        "0 bits 80 = noted yes", "0 lack 2 = noted yes", "1 join = joined", "1 lack 2 = noted no", "1 bits e0 = refused LateBits"]),
    "late_comes_after_all": ("one_piece", 2, enters(0, "80") + enters(1, "80") + [
        "0 next 0 = request 0 0 3", "0 late 0 0 = quiet", "1 next 0 = request 0 0 3", "0 block 0 0 616263 = completed",
        "0 next 0 = idle", "1 next 0 = cancel 0 0 3"]),
    "late_at_a_lone_peer": ("two_blocks", 1, enters(0, "c0") + [
        "0 next 0 = request 0 0 16384", "0 late 0 0 = quiet", "0 next 0 = request 0 16384 16384", "0 next 1 = request 1 0 16384",
        "0 next 0 = request 1 16384 16384", "0 next 0 = idle", "0 block 0 0 X = stored"]),
    "late_stays_in_the_pipe": ("two_blocks", 1, enters(0, "c0") + TWO_ASKED + [
        "0 late 0 0 = quiet", "0 late 0 16384 = quiet", "0 next 0 = pipefull", "0 release 0 0 = quiet", "0 next 0 = request 0 0 16384"]),
    "released_once_late": ("one_piece", 1, enters(0, "80") + [
        "0 next 0 = request 0 0 3", "0 late 0 0 = quiet", "0 next 0 = idle", "0 release 0 0 = quiet", "0 next 0 = request 0 0 3"]),
    "spent_piece_is_passed_by": ("short_last", 3, enters(0, "e0") + enters(1, "60") + [
        "0 next 0 = request 0 0 3", "0 late 0 0 = quiet", "0 next 1 = request 1 0 3"] + enters(2, "a0") + [
        "2 next 2 = request 0 0 3"]),
    "spent_open_piece_is_passed_by": ("four_pairs", 2, enters(0, "f0") + enters(1, "70") + [
        "0 next 0 = request 0 0 16384", "0 late 0 0 = quiet", "0 next 0 = request 0 16384 16384", "0 next 2 = request 2 0 16384",
        "0 next 3 = request 2 16384 16384"]),
    "refusals_of_late": ("short_last", 2, [
        "0 late 0 0 = refused NotJoined", "0 join = joined", "0 late 0 0 = refused NotAsked", "0 bits e0 = noted yes",
        "0 unchoke = quiet", "0 next 0 = request 0 0 3", "0 late 0 1 = refused NotAsked", "0 late 9 0 = refused NotAsked"]
        + enters(1, "80") + ["1 late 0 0 = refused NotAsked", "0 late 0 0 = quiet", "0 late 0 0 = quiet", "0 release 0 0 = quiet",
                             "0 late 0 0 = refused NotAsked"]),
    "alone_begins_its_own": ("two_blocks", 2, enters(0, "c0") + enters(1, "c0") + [
        "0 next 0 = request 0 0 16384", "1 alone yes = quiet", "1 next 0 = request 1 0 16384", "0 next 0 = request 0 16384 16384",
        "0 next 0 = idle", "1 next 0 = request 1 16384 16384", "0 next 0 = request 1 0 16384"]),
    "alone_told_off": ("two_blocks", 2, enters(0, "c0") + enters(1, "c0") + [
        "1 alone yes = quiet", "1 next 0 = request 0 0 16384", "0 next 0 = request 1 0 16384", "0 next 0 = request 1 16384 16384",
        "0 next 0 = idle", "1 alone no = quiet", "0 next 0 = request 0 16384 16384"]),
    "choke_shares_its_pieces": ("two_blocks", 2, enters(0, "c0") + enters(1, "c0") + [
        "1 alone yes = quiet", "1 next 0 = request 0 0 16384", "1 block 0 0 X = stored", "0 next 0 = request 1 0 16384",
        "0 next 0 = request 1 16384 16384", "0 next 0 = idle", "1 choke = quiet", "0 next 0 = request 0 16384 16384"]),
    "another_brings_a_block_of_its_own": ("two_blocks", 2, enters(0, "c0") + enters(1, "c0") + [
        "0 next 0 = request 0 0 16384", "0 release 0 0 = quiet", "1 alone yes = quiet", "1 next 0 = request 0 0 16384",
        "0 block 0 0 X = stored", "1 next 0 = cancel 0 0 16384", "1 next 0 = request 1 0 16384", "0 next 0 = request 0 16384 16384"]),
    "alone_goes_with_its_peer": ("two_blocks", 2, [
        "0 join = joined", "0 alone yes = quiet", "0 leave = quiet", *enters(0, "c0"), *enters(1, "c0"),
        "1 next 0 = request 0 0 16384", "0 next 0 = request 0 16384 16384"]),
    "alone_in_order": ("two_blocks", 2, ["0 inorder yes = quiet"] + enters(0, "c0") + enters(1, "c0") + [
        "1 alone yes = quiet", "1 next 0 = request 0 0 16384", "0 next 0 = request 1 0 16384", "1 next 0 = request 0 16384 16384"]),
    "two_work_alone": ("two_blocks", 2, enters(0, "c0") + enters(1, "c0") + [
        "0 alone yes = quiet", "1 alone yes = quiet", "0 next 0 = request 0 0 16384", "1 next 0 = request 1 0 16384",
        "0 next 0 = request 0 16384 16384", "0 next 0 = idle", "1 next 0 = request 1 16384 16384", "0 next 0 = request 1 0 16384"]),
    "refusals_of_alone": ("two_blocks", 1, [
        "0 alone yes = refused NotJoined", "0 join = joined", "0 alone yes = quiet", "0 alone yes = quiet", "0 alone no = quiet",
        "0 bits c0 = noted yes"]),
    "lost_piece_is_asked_again": ("one_piece", 1, enters(0, "80") + ["0 next 0 = request 0 0 3"] + checked(0, 0, "616263") + [
        "0 next 0 = nothing", "0 lose 0 = failed", "0 next 0 = request 0 0 3"] + checked(0, 0, "616263") + ["0 next 0 = nothing"]),
    "lost_with_a_block_in_flight": ("two_blocks", 1, enters(0, "c0") + [
        "0 next 0 = request 0 0 16384", "0 block 0 0 X = stored", "0 next 0 = request 0 16384 16384", "0 lose 0 = failed",
        "0 next 1 = request 0 0 16384", "0 block 0 0 X = stored"]),
    "discarded_block_is_asked_again": ("two_blocks", 1, enters(0, "c0") + [
        "0 next 0 = request 0 0 16384", "0 block 0 0 X = stored", "0 next 0 = request 0 16384 16384", "0 discard 0 0 = failed",
        "0 next 1 = request 0 0 16384", "0 block 0 16384 X = stored", "0 block 0 0 X = completed"]),
    "discarded_block_was_the_only_one": ("two_blocks", 1, enters(0, "c0") + [
        "0 next 0 = request 0 0 16384", "0 block 0 0 X = stored", "0 discard 0 0 = failed", "0 next 1 = request 1 0 16384"]),
    "discarded_before_its_check": ("one_piece", 1, [
        "0 join = joined", "0 block 0 0 616264 = completed", "0 discard 0 0 = failed", "0 settle 0 616264 = refused NotWaiting"]
        + checked(0, 0, "616263") + ["0 discard 0 0 = refused NotWaiting"]),
    "refusals_of_losses": ("short_last", 1, [
        "0 lose 3 = refused NoSuchPiece", "0 discard 3 0 = refused NoSuchPiece", "0 discard 0 1 = refused NoSuchBlock", "0 lose 0 = failed",
        "0 discard 0 0 = failed", "0 join = joined", "0 bits e0 = noted yes"]),
    "block_in_flight_counts": ("two_blocks", 2, enters(0, "c0") + enters(1, "c0") + [
        "0 requested 0 16384 = inflight 0 16384 16384", "1 next 0 = request 0 0 16384", "1 next 0 = request 1 0 16384",
        "1 block 0 16384 X = stored", "0 next 0 = cancel 0 16384 16384", "0 requested 1 16384 = inflight 1 16384 16384"]),
    "block_in_flight_takes_room": ("two_blocks", 1, enters(0, "c0") + [
        "0 requested 1 16384 = inflight 1 16384 16384", "0 next 0 = pipefull", "0 requested 1 0 = refused NotWaiting",
        "0 release 1 16384 = quiet", "0 next 1 = request 1 0 16384"]),
    "refusals_of_requested": ("two_blocks", 2, [
        "0 requested 0 0 = refused NotJoined", "0 join = joined", "0 requested 2 0 = refused NoSuchPiece",
        "0 requested 0 1 = refused NoSuchBlock", "0 unchoke = quiet", "0 requested 0 0 = refused NotWaiting", "0 have 0 = noted yes",
        "0 choke = quiet", "0 requested 0 0 = refused NotWaiting", "0 unchoke = quiet", "0 level 0 0 = quiet",
        "0 requested 0 0 = refused NotWaiting", "0 level 0 7 = quiet", "0 reach 6 = quiet", "0 requested 0 0 = refused NotWaiting",
        "0 reach 7 = quiet", "0 requested 0 0 = inflight 0 0 16384", "0 requested 0 0 = refused NotWaiting"] + enters(1, "c0") + [
        "1 requested 0 0 = refused NotWaiting", "1 block 0 0 X = stored", "0 requested 0 16384 = refused NotWaiting",
        "0 next 0 = cancel 0 0 16384", "0 requested 0 0 = refused NotWaiting", "0 requested 0 16384 = inflight 0 16384 16384"]),
}

WRONG: dict[str, tuple[str, int, str]] = {  # name: example, how many entries of it came before, the wrong entry
    "idle_though_a_block_is_usable": ("one_peer_to_the_end", 3, "0 next 5 = idle"),
    "second_piece_started_while_a_begun_one_has_a_usable_block": ("strict_priority", 4, "0 next 1 = request 1 0 16384"),
    "availability_counts_a_peer_that_left": ("gone_peer_not_counted", 11, "0 next 1 = request 1 0 3"),
    "commoner_piece_started": ("rarest_first", 8, "0 next 1 = request 1 0 3"),
    "second_peer_asked_while_a_block_is_unasked": ("double_outlasts_endgame", 16, "3 next 0 = request 0 0 3"),
    "second_peer_asked_before_endgame": ("no_double_before_endgame", 7, "1 next 0 = request 0 0 3"),
    "had_with_another_hash": ("failed_check_in_endgame", 9, "0 settle 0 616264 = had"),
    "replaced_bytes_settled": ("failed_check_in_endgame", 9, "0 settle 0 616263 = had"),
    "replaced_bytes_failed": ("stale_verdict", 4, "0 settle 0 616264 = failed"),
    "idle_though_a_cancel_is_due": ("cancel_in_endgame", 9, "1 next 0 = idle"),
    "sixth_request": ("full_pipe", 8, "0 next 0 = request 0 81920 16384"),
    "pipe_full_after_four": ("full_pipe", 7, "0 next 0 = pipefull"),
    "pipe_full_though_the_choke_freed_it": ("choke_frees", 13, "0 next 0 = pipefull"),
    "noted_from_before_the_bits": ("first_request", 1, "0 bits e0 = noted no"),
    "block_stored_twice": ("held_block_dropped", 2, "0 block 2 0 61 = completed"),
    "late_bits_noted": ("held_block_dropped", 2, "0 bits e0 = noted yes"),
    "request_of_a_wrong_length": ("first_request", 3, "0 next 5 = request 2 0 3"),
    "third_request_at_depth_two": ("depth_two", 5, "0 next 0 = request 0 32768 16384"),
    "pipe_full_at_depth_two_after_one": ("depth_two", 4, "0 next 0 = pipefull"),
    "pipe_full_at_five_though_deep": ("deep_pipe", 8, "0 next 0 = pipefull"),
    "first_piece_at_random_though_none_is": ("rarest_from_the_start", 5, "0 next 1 = request 1 0 3"),
    "third_piece_at_random": ("rarest_after_two_pieces", 11, "0 next 3 = request 3 0 3"),
    "unwanted_block_asked": ("wants", 5, "0 next 0 = request 0 0 3"),
    "older_want_still_counts": ("wants", 9, "0 next 0 = request 2 0 1"),
    "idle_though_nothing_is_wanted": ("wants", 9, "0 next 0 = idle"),
    "unwanted_piece_noted": ("wants", 13, "0 have 2 = noted yes"),
    "want_of_a_stranger_refused": ("wants", 0, "1 want 40 = refused NotJoined"),
    "want_of_a_wrong_count_taken": ("wants", 14, "1 wants 0000 = quiet"),
    "unwanted_block_keeps_endgame_off": ("endgame_of_the_wanted", 8, "1 next 0 = idle"),
    "bits_late_by_a_want": ("want_before_the_bits", 2, "0 bits e0 = refused LateBits"),
    "unwanted_block_freed": ("asked_stays_asked", 10, "0 next 0 = request 0 0 3"),
    "idle_though_another_peer_released": ("released_is_asked_elsewhere", 9, "1 next 0 = idle"),
    "cancel_of_what_another_peer_released": ("released_in_endgame", 9, "1 next 0 = cancel 0 0 3"),
    "cancel_of_a_released_block": ("released_in_endgame", 11, "0 next 0 = cancel 0 0 3"),
    "released_piece_continued": ("released_piece_is_unbegun", 6, "0 next 0 = request 0 16384 16384"),
    "idle_though_released": ("released_is_asked_again", 6, "0 next 0 = idle"),
    "released_block_dropped": ("released_arrives_after_all", 5, "0 block 0 0 X = dropped"),
    "second_request_at_a_depth_of_one": ("depth_of_one", 5, "0 next 0 = request 0 16384 16384"),
    "pipe_full_though_deepened": ("deepened", 10, "0 next 0 = pipefull"),
    "depth_forgotten_at_a_choke": ("depth_outlasts_a_choke", 11, "0 next 0 = request 0 32768 16384"),
    "depth_outlasts_its_peer": ("depth_goes_with_its_peer", 11, "0 next 0 = pipefull"),
    "request_beyond_a_smaller_depth": ("smaller_depth", 7, "0 next 0 = request 0 49152 16384"),
    "pipe_full_though_enough_came": ("smaller_depth", 11, "0 next 0 = pipefull"),
    "second_asker_of_one": ("one_asker", 7, "1 next 0 = request 0 0 3"),
    "third_asker_of_two": ("two_askers", 11, "2 next 0 = request 0 0 3"),
    "second_asker_of_two_idle": ("two_askers", 7, "1 next 0 = idle"),
    "depth_told_though_none_may_be": ("no_depth_may_be_told", 1, "0 depth 1 = quiet"),
    "depth_beyond_any": ("greatest_depth", 1, "0 depth 4097 = quiet"),
    "unasked_block_released": ("refusals_of_release_and_depth", 5, "0 release 0 0 = quiet"),
    "block_of_another_peer_released": ("refusals_of_release_and_depth", 10, "1 release 0 0 = quiet"),
    "depth_of_none_told": ("refusals_of_release_and_depth", 13, "0 depth 0 = quiet"),
    "depth_beyond_the_rules_told": ("refusals_of_release_and_depth", 14, "0 depth 65 = quiet"),
    "block_released_twice": ("refusals_of_release_and_depth", 17, "0 release 0 0 = quiet"),
    "idle_though_the_bitfield_shows_more": ("haves_after_a_bitfield", 5, "0 next 0 = idle"),
    "nothing_left_though_the_bitfield_shows_more": ("haves_after_a_bitfield", 7, "0 next 0 = nothing"),
    "bits_after_haves_noted": ("haves_after_a_have", 3, "0 bits e0 = noted yes"),
    "haves_noted_without_the_bits": ("haves_of_none", 9, "1 haves 00 = noted no"),
    "availability_without_the_haves": ("haves_are_counted", 6, "0 next 0 = request 2 0 1"),
    "low_level_asked_first": ("two_levels", 10, "0 next 0 = request 0 0 3"),
    "commoner_piece_of_the_level_started": ("two_levels", 10, "0 next 0 = request 1 0 3"),
    "rarer_piece_of_a_lower_level_started": ("two_levels", 11, "1 next 0 = request 0 0 3"),
    "second_peer_asked_though_a_low_level_is_unasked": ("two_levels", 12, "2 next 0 = request 2 0 3"),
    "begun_piece_of_a_lower_level_continued": ("raised_in_mid_download", 5, "0 next 0 = request 0 16384 16384"),
    "in_order_before_levels": ("streaming", 5, "0 next 0 = request 0 0 3"),
    "in_order_by_the_wrong_end": ("streaming", 6, "0 next 0 = request 3 0 3"),
    "moved_head_passed_over": ("streaming", 9, "0 next 0 = request 1 0 3"),
    "begun_piece_continued_though_in_order": ("earlier_piece_in_order", 6, "0 next 0 = request 1 16384 16384"),
    "rarest_though_in_order": ("in_order_told_off", 6, "0 next 0 = request 2 0 3"),
    "in_order_though_told_off": ("in_order_told_off", 8, "0 next 0 = request 1 0 3"),
    "idle_though_a_low_level_is_usable": ("peer_of_low_levels", 7, "1 next 0 = idle"),
    "piece_of_level_0_asked": ("unwanted_by_level", 4, "0 next 0 = request 0 0 3"),
    "idle_though_wanted_again": ("unwanted_by_level", 7, "0 next 0 = idle"),
    "bits_noted_though_of_level_0": ("levels_of_none", 2, "0 bits e0 = noted yes"),
    "nothing_left_though_a_level_rose": ("levels_of_none", 6, "0 next 0 = nothing"),
    "older_level_outlasts_a_want": ("want_after_levels", 7, "0 next 0 = request 3 0 3"),
    "level_below_the_usual_asked_first": ("want_after_levels", 10, "0 next 0 = request 0 0 3"),
    "bits_late_by_a_level": ("level_before_the_bits", 2, "0 bits c0 = refused LateBits"),
    "level_from_before_the_bits_forgotten": ("level_before_the_bits", 4, "0 next 0 = request 0 0 3"),
    "endgame_though_a_low_level_is_unasked": ("endgame_of_all_levels", 11, "1 next 0 = request 0 0 3"),
    "asked_block_of_level_0_dropped": ("asked_outlasts_its_level", 5, "0 block 0 0 616263 = dropped"),
    "level_of_no_piece_taken": ("refusals_of_levels", 0, "0 level 3 4 = quiet"),
    "level_8_taken": ("refusals_of_levels", 1, "0 level 0 8 = quiet"),
    "levels_of_a_wrong_count_taken": ("refusals_of_levels", 3, "1 levels 44 = quiet"),
    "levels_with_an_8_taken": ("refusals_of_levels", 5, "1 levels 484 = quiet"),
    "levels_refused_for_a_later_cause": ("refusals_of_levels", 6, "1 levels 88 = refused WrongLevel"),
    "level_of_a_stranger_refused": ("refusals_of_levels", 8, "1 level 2 7 = refused NotJoined"),
    "order_of_a_stranger_refused": ("refusals_of_levels", 9, "0 inorder yes = refused NotJoined"),
    "rarer_piece_begun_though_begun_ones_come_first": ("any_begun_piece_goes_on", 11, "0 next 2 = request 2 0 16384"),
    "begun_piece_continued_though_a_rarer_one_is_unbegun": ("rarest_while_few_are_open", 7, "0 next 2 = request 0 16384 16384"),
    "piece_begun_though_more_are_open_than_may_be": ("rarest_while_few_are_open", 8, "0 next 3 = request 3 0 16384"),
    "commoner_open_piece_continued": ("rarest_while_few_are_open", 8, "0 next 3 = request 0 16384 16384"),
    "unbegun_piece_started_though_a_begun_one_is_as_rare": ("rarest_while_few_are_open", 9, "1 next 1 = request 1 0 16384"),
    "as_many_open_as_may_be_are_too_many": ("as_many_open_as_may_be", 11, "0 next 2 = request 1 16384 16384"),
    "as_rare_piece_begun_though_more_are_open": ("as_many_open_as_may_be", 12, "0 next 3 = request 3 0 16384"),
    "open_piece_of_the_least_number_continued": ("rarest_of_the_open_goes_on", 11, "0 next 2 = request 0 16384 16384"),
    "rarer_piece_begun_though_two_are_open": ("rarest_of_the_open_goes_on", 11, "0 next 2 = request 2 0 16384"),
    "last_open_piece_continued_though_a_rarer_one_is_unbegun": ("rarest_of_the_open_goes_on", 12, "0 next 2 = request 0 16384 16384"),
    "rarer_piece_begun_though_none_is_had": ("first_piece_before_rarity", 6, "0 next 0 = request 1 0 16384"),
    "commoner_begun_piece_continued_at_random": ("rarest_of_the_begun_at_random", 11, "0 next 3 = request 0 16384 16384"),
    "third_piece_begun_at_random": ("rarest_of_the_begun_at_random", 11, "0 next 3 = request 3 0 16384"),
    "rarer_piece_begun_before_enough_are_had": ("rarest_once_enough_are_had", 8, "0 next 0 = request 1 0 16384"),
    "begun_piece_continued_though_enough_are_had": ("rarest_once_enough_are_had", 10, "0 next 0 = request 0 16384 16384"),
    "open_counted_on_one_level": ("open_counted_over_all_levels", 11, "0 next 0 = request 1 0 16384"),
    "wholly_requested_piece_counted_as_open": ("wholly_requested_pieces_are_not_open", 9, "0 next 2 = request 1 16384 16384"),
    "released_block_left_out_of_the_count": ("released_block_opens_its_piece", 10, "0 next 2 = request 2 0 16384"),
    "held_block_left_out_of_the_count": ("held_block_opens_its_piece", 8, "0 next 2 = request 2 0 16384"),
    "held_piece_counted_as_open": ("held_pieces_are_not_open", 9, "0 next 2 = request 1 16384 16384"),
    "unwanted_piece_counted_as_open": ("unwanted_pieces_are_not_open", 12, "0 next 2 = request 1 16384 16384"),
    "commoner_piece_begun_though_many_are_open": ("none_of_the_open_is_shown", 13, "2 next 3 = request 3 0 16384"),
    "idle_though_no_open_piece_is_shown": ("none_of_the_open_is_shown", 13, "2 next 3 = idle"),
    "open_piece_continued_though_in_order": ("in_order_however_many_are_open", 9, "0 next 3 = request 1 16384 16384"),
    "second_peer_idle_though_it_has_few": ("endgame_at_few", 8, "1 next 0 = idle"),
    "second_block_of_one_that_has_as_many_as_may_be": ("endgame_at_few", 9, "1 next 0 = request 1 0 3"),
    "second_peer_asked_though_none_may_be": ("endgame_at_none", 7, "1 next 0 = request 0 0 3"),
    "second_peer_asked_though_an_unshown_piece_is_wanted": ("unshown_piece_holds_up_endgame", 7, "1 next 0 = request 0 0 3"),
    "idle_though_all_that_is_shown_is_asked": ("endgame_over_what_is_shown", 7, "1 next 0 = idle"),
    "second_peer_asked_though_a_shown_block_is_unasked": ("shown_piece_holds_up_endgame", 9, "1 next 0 = request 0 0 3"),
    "idle_though_nobody_shows_the_rest": ("shown_piece_holds_up_endgame", 11, "1 next 0 = idle"),
    "second_peer_asked_though_a_shown_low_level_is_unasked": ("lower_level_is_awaited_too", 13, "1 next 0 = request 1 0 3"),
    "block_beyond_the_reach": ("slow_peer_gets_low_levels", 5, "0 next 0 = request 0 0 3"),
    "next_level_beyond_the_reach": ("slow_peer_gets_low_levels", 7, "0 next 0 = request 1 0 3"),
    "nothing_left_though_it_is_beyond_the_reach": ("slow_peer_gets_low_levels", 7, "0 next 0 = nothing"),
    "idle_though_the_reach_rose": ("slow_peer_gets_low_levels", 9, "0 next 0 = idle"),
    "second_peer_asked_beyond_its_reach": ("reach_in_endgame", 10, "1 next 0 = request 0 0 3"),
    "request_before_the_reach_goes": ("reach_goes_with_its_peer", 4, "0 next 0 = request 0 0 3"),
    "reach_of_the_peer_before": ("reach_goes_with_its_peer", 9, "0 next 0 = idle"),
    "reach_of_a_stranger_taken": ("refusals_of_reach_and_order", 0, "0 reach 3 = quiet"),
    "reach_8_taken": ("refusals_of_reach_and_order", 3, "0 reach 8 = quiet"),
    "order_from_9_taken": ("refusals_of_reach_and_order", 6, "1 inorderfrom 9 = quiet"),
    "order_from_of_a_stranger_refused": ("refusals_of_reach_and_order", 7, "1 inorderfrom 8 = refused NotJoined"),
    "rarest_though_in_the_window": ("window_comes_in_order", 7, "0 next 0 = request 3 0 3"),
    "in_order_though_below_the_window": ("window_comes_in_order", 9, "0 next 0 = request 0 0 3"),
    "window_outlasts_an_order": ("window_told_anew", 7, "0 next 3 = request 3 0 3"),
    "least_piece_though_none_comes_in_order": ("window_told_anew", 9, "0 next 3 = request 1 0 3"),
    "lacked_piece_asked_again": ("lacked_is_asked_elsewhere", 8, "0 next 0 = request 0 0 16384"),
    "lacked_piece_counts_as_begun": ("lacked_is_asked_elsewhere", 11, "1 next 0 = request 0 0 16384"),
    "idle_though_both_blocks_were_freed": ("lacked_is_asked_elsewhere", 13, "1 next 0 = idle"),
    "second_peer_asked_for_what_it_lacks": ("lacked_is_asked_elsewhere", 15, "0 next 0 = request 0 0 16384"),
    "piece_counted_for_peers_that_lack_it": ("lack_makes_another_piece_rarest", 10, "0 next 1 = request 1 0 3"),
    "interesting_though_it_lacks_the_only_piece": ("lack_of_the_only_piece", 4, "0 lack 0 = noted yes"),
    "idle_though_it_lacks_the_only_piece": ("lack_of_the_only_piece", 5, "0 next 0 = idle"),
    "nothing_left_though_it_has_the_piece_again": ("lack_of_the_only_piece", 7, "0 next 0 = nothing"),
    "cancel_due_for_a_piece_that_was_lacked_before": ("cancel_outlasts_a_lack", 15, "1 next 0 = cancel 0 0 3"),
    "cancel_forgotten_by_a_lack": ("cancel_outlasts_a_lack", 16, "2 next 0 = nothing"),
    "idle_though_the_last_peer_lacks_the_rest": ("lack_begins_endgame", 11, "1 next 0 = idle"),
    "lack_of_a_stranger_taken": ("refusals_of_lack", 0, "0 lack 0 = noted no"),
    "lack_of_no_piece_taken": ("refusals_of_lack", 3, "0 lack 3 = noted no"),
    "bitfield_late_by_a_refused_lack": ("refusals_of_lack", 4, "0 bits 80 = refused LateBits"),
    "lack_of_an_unshown_piece_refused": ("refusals_of_lack", 5, "0 lack 2 = refused NoSuchPiece"),
    "bitfield_after_a_lack_taken": ("refusals_of_lack", 8, "1 bits e0 = noted yes"),
    "idle_though_the_other_peer_is_late": ("late_is_asked_elsewhere", 9, "1 next 0 = idle"),
    "late_block_asked_again_of_its_own_peer": ("late_is_asked_elsewhere", 10, "0 next 0 = request 0 0 3"),
    "idle_though_late_with_another_piece": ("late_is_asked_elsewhere", 10, "0 next 0 = idle"),
    "no_cancel_since_it_was_late": ("late_is_asked_elsewhere", 12, "0 next 0 = idle"),
    "cancel_of_what_its_own_peer_brought_late": ("late_comes_after_all", 10, "0 next 0 = cancel 0 0 3"),
    "no_cancel_since_the_late_peer_brought_it": ("late_comes_after_all", 11, "1 next 0 = idle"),
    "late_block_asked_again_of_a_lone_peer": ("late_at_a_lone_peer", 5, "0 next 0 = request 0 0 16384"),
    "idle_at_a_lone_peer_with_a_spent_piece": ("late_at_a_lone_peer", 6, "0 next 1 = idle"),
    "spent_piece_continued": ("late_at_a_lone_peer", 6, "0 next 1 = request 0 0 16384"),
    "late_block_dropped": ("late_at_a_lone_peer", 9, "0 block 0 0 X = dropped"),
    "second_peer_asked_though_a_late_block_waits": ("late_holds_up_endgame", 9, "0 next 0 = request 1 0 3"),
    "nothing_left_though_it_is_late": ("late_holds_up_endgame", 9, "0 next 0 = nothing"),
    "idle_though_the_late_block_was_given_on": ("late_holds_up_endgame", 14, "0 next 0 = idle"),
    "late_requests_left_out_of_the_pipe": ("late_stays_in_the_pipe", 8, "0 next 0 = request 1 0 16384"),
    "released_though_still_in_the_pipe": ("late_stays_in_the_pipe", 10, "0 next 0 = pipefull"),
    "late_peer_counted_as_an_asker": ("late_in_spite_of_one_asker", 12, "1 next 0 = idle"),
    "late_twice_refused": ("late_in_spite_of_one_asker", 13, "0 late 0 0 = refused NotAsked"),
    "late_twice_counted_twice": ("late_in_spite_of_one_asker", 14, "2 next 0 = request 0 0 3"),
    "late_though_the_block_came": ("late_no_more", 11, "1 next 0 = request 0 0 3"),
    "late_though_the_peer_choked_us": ("late_no_more", 16, "1 next 0 = request 0 0 3"),
    "late_block_asked_again_before_its_release": ("released_once_late", 5, "0 next 0 = request 0 0 3"),
    "idle_though_late_was_released": ("released_once_late", 7, "0 next 0 = idle"),
    "idle_since_the_rarest_piece_is_spent": ("spent_piece_is_passed_by", 8, "0 next 1 = idle"),
    "spent_piece_begun_again": ("spent_piece_is_passed_by", 8, "0 next 1 = request 0 0 3"),
    "piece_spent_for_another_peer_too": ("spent_piece_is_passed_by", 12, "2 next 2 = request 2 0 1"),
    "piece_with_a_late_block_left": ("spent_open_piece_is_passed_by", 8, "0 next 0 = request 1 0 16384"),
    "another_piece_begun_for_a_spent_one": ("spent_open_piece_is_passed_by", 10, "0 next 3 = request 3 0 16384"),
    "late_of_a_stranger_taken": ("refusals_of_late", 0, "0 late 0 0 = quiet"),
    "late_of_an_unasked_block_taken": ("refusals_of_late", 2, "0 late 0 0 = quiet"),
    "bitfield_late_by_a_refused_late": ("refusals_of_late", 3, "0 bits e0 = refused LateBits"),
    "late_at_another_place_taken": ("refusals_of_late", 6, "0 late 0 1 = quiet"),
    "late_of_no_piece_told_as_such": ("refusals_of_late", 7, "0 late 9 0 = refused NoSuchPiece"),
    "begun_piece_of_others_for_one_alone": ("alone_begins_its_own", 8, "1 next 0 = request 0 16384 16384"),
    "block_of_a_piece_of_its_own_for_another": ("alone_begins_its_own", 10, "0 next 0 = request 1 16384 16384"),
    "idle_though_endgame_shares_its_pieces": ("alone_begins_its_own", 12, "0 next 0 = idle"),
    "piece_of_its_own_goes_on_elsewhere": ("alone_told_off", 8, "0 next 0 = request 0 16384 16384"),
    "idle_though_it_was_told_off": ("alone_told_off", 12, "0 next 0 = idle"),
    "held_piece_of_its_own_goes_on_elsewhere": ("choke_shares_its_pieces", 11, "0 next 0 = request 0 16384 16384"),
    "idle_though_the_owner_choked_us": ("choke_shares_its_pieces", 13, "0 next 0 = idle"),
    "goes_on_though_another_brought_a_block": ("another_brings_a_block_of_its_own", 12, "1 next 0 = request 0 16384 16384"),
    "passed_by_though_two_brought_blocks": ("another_brings_a_block_of_its_own", 13, "0 next 0 = idle"),
    "alone_outlasts_its_peer": ("alone_goes_with_its_peer", 10, "0 next 0 = request 1 0 16384"),
    "piece_of_its_own_goes_on_in_order": ("alone_in_order", 9, "0 next 0 = request 0 16384 16384"),
    "piece_of_another_one_alone": ("two_work_alone", 11, "0 next 0 = request 1 16384 16384"),
    "alone_of_a_stranger_taken": ("refusals_of_alone", 0, "0 alone yes = quiet"),
    "bitfield_late_by_an_alone": ("refusals_of_alone", 5, "0 bits c0 = refused LateBits"),
    "late_of_another_peers_block_taken": ("refusals_of_late", 11, "1 late 0 0 = quiet"),
    "late_of_a_released_block_taken": ("refusals_of_late", 15, "0 late 0 0 = quiet"),
    "lost_piece_stays_complete": ("lost_piece_is_asked_again", 8, "0 next 0 = nothing"),
    "loss_needs_a_check": ("lost_piece_is_asked_again", 7, "0 lose 0 = refused NotWaiting"),
    "request_in_flight_ends_by_a_loss": ("lost_with_a_block_in_flight", 7, "0 next 1 = request 0 16384 16384"),
    "lost_piece_is_begun_no_more": ("lost_with_a_block_in_flight", 7, "0 next 1 = request 1 0 16384"),
    "lost_block_is_dropped": ("lost_with_a_block_in_flight", 8, "0 block 0 0 X = dropped"),
    "discarded_block_is_dropped": ("discarded_block_is_asked_again", 9, "0 block 0 0 X = stored"),
    "piece_of_a_discarded_block_is_passed_by": ("discarded_block_is_asked_again", 7, "0 next 1 = request 1 0 16384"),
    "settled_though_a_block_was_discarded": ("discarded_before_its_check", 3, "0 settle 0 616264 = failed"),
    "block_of_a_complete_piece_is_discarded": ("discarded_before_its_check", 6, "0 discard 0 0 = failed"),
    "no_such_piece_is_lost": ("refusals_of_losses", 0, "0 lose 3 = failed"),
    "no_such_block_is_discarded": ("refusals_of_losses", 2, "0 discard 0 1 = failed"),
    "loss_needs_a_peer": ("refusals_of_losses", 3, "0 lose 0 = refused NotJoined"),
    "bitfield_late_by_a_loss": ("refusals_of_losses", 6, "0 bits e0 = refused LateBits"),
    "block_in_flight_is_requested_again": ("block_in_flight_counts", 7, "1 next 0 = request 0 16384 16384"),
    "piece_of_a_block_in_flight_has_not_begun": ("block_in_flight_counts", 7, "1 next 1 = request 1 0 16384"),
    "no_cancel_for_a_block_in_flight": ("block_in_flight_counts", 10, "0 next 0 = request 1 16384 16384"),
    "another_block_in_flight": ("block_in_flight_counts", 6, "0 requested 0 16384 = inflight 0 0 16384"),
    "block_in_flight_beyond_the_depth": ("block_in_flight_takes_room", 5, "0 requested 1 0 = inflight 1 0 16384"),
    "strangers_block_in_flight": ("refusals_of_requested", 0, "0 requested 0 0 = inflight 0 0 16384"),
    "no_such_block_in_flight": ("refusals_of_requested", 3, "0 requested 0 1 = inflight 0 0 16384"),
    "block_in_flight_that_is_not_shown": ("refusals_of_requested", 5, "0 requested 0 0 = inflight 0 0 16384"),
    "block_in_flight_while_choked": ("refusals_of_requested", 8, "0 requested 0 0 = inflight 0 0 16384"),
    "unwanted_block_in_flight": ("refusals_of_requested", 11, "0 requested 0 0 = inflight 0 0 16384"),
    "block_in_flight_beyond_the_reach": ("refusals_of_requested", 14, "0 requested 0 0 = inflight 0 0 16384"),
    "block_in_flight_twice": ("refusals_of_requested", 17, "0 requested 0 0 = inflight 0 0 16384"),
    "block_in_flight_at_two_peers": ("refusals_of_requested", 21, "1 requested 0 0 = inflight 0 0 16384"),
    "block_in_flight_while_a_cancel_is_due": ("refusals_of_requested", 23, "0 requested 0 16384 = inflight 0 16384 16384"),
    "held_block_in_flight": ("refusals_of_requested", 25, "0 requested 0 0 = inflight 0 0 16384"),
}

WRONG_IN_AUDITS: dict[str, tuple[int, str]] = {  # example: how many entries of it came before, the wrong entry; for the examples that have none above
    "another_first_request": (3, "0 next 5 = nothing"),
    "failed_check": (7, "0 settle 0 616264 = refused Stale"),
    "block_by_block": (3, "0 block 0 16384 X = stored"),
    "refusals": (8, "0 block 0 1 6263 = refused WrongLength"),
    "wrong_count": (1, "0 flags 0000 = noted no"),
    "random_first_piece": (5, "0 next 1 = idle"),
    "rare_first_piece_too": (5, "0 next 1 = pipefull"),
    "rejoin_in_endgame": (10, "0 next 0 = request 0 0 3"),
    "second_piece_at_random": (8, "0 next 1 = idle"),
}


def setting(name: str) -> str:
    """The setting of an example, by the definitions."""
    torrent, workers, _ = EXAMPLES[name]
    return f"(setting_of torrent_{torrent} {workers} {rules(name)})"


def rules(name: str) -> str:
    """The rules of an example, by the definitions."""
    chosen = RULES.get(name, ())
    function = {0: "usual_rules", 2: "rules", 4: "bounded_rules", 5: "open_rules", 7: "ending_rules"}[len(chosen)]
    return f"({' '.join([function, *(str(each).lower() for each in chosen)])})" if chosen else function


def rules_of(name: str) -> Rules:
    """The rules of an example, by the model."""
    chosen: list[Any] = [*RULES.get(name, ())]  # numbers, and a flag behind them
    return Rules(*chosen)


def items(xs: Iterable[str]) -> str:
    return " ∷ ".join([*xs, "[]"])


def in_bytes(text: str) -> str:
    if text == "X":
        return "(replicate 16384 97)"
    return "(" + items([str(b) for b in bytes.fromhex(text)]) + ")"


def flags(text: str, count: int) -> str:
    value, width = int(text, 16), 4 * len(text)
    return "(" + items(["true" if value >> (width - 1 - p) & 1 else "false" for p in range(count)]) + ")"


PLAIN = {"joined": "Joined", "quiet": "Quiet", "idle": "Idle", "nothing": "NothingLeft", "completed": "Completed", "stored": "Stored",
         "had": "Had", "failed": "Failed", "dropped": "Dropped", "choked": "Choked", "pipefull": "PipeFull"}

BLOCKS = {"request": "Request", "cancel": "Cancel", "inflight": "InFlight"}


def action(words: list[str], pieces: int) -> str:
    match words:
        case ["bits", text]: return f"(Bits {flags(text, pieces)})"
        case ["flags", text]: return f"(Bits {flags(text, len(text))})"
        case ["want", text]: return f"(Want {flags(text, pieces)})"
        case ["wants", text]: return f"(Want {flags(text, len(text))})"
        case ["haves", text]: return f"(Haves {flags(text, pieces)})"
        case ["shown", text]: return f"(Haves {flags(text, len(text))})"
        case ["have", piece]: return f"(Have {piece})"
        case ["lack", piece]: return f"(Lack {piece})"
        case ["depth", depth]: return f"(Depth {depth})"
        case ["release", piece, begin]: return f"(Release {piece} {begin})"
        case ["late", piece, begin]: return f"(Late {piece} {begin})"
        case ["lose", piece]: return f"(Lose {piece})"
        case ["discard", piece, begin]: return f"(Discard {piece} {begin})"
        case ["requested", piece, begin]: return f"(Requested {piece} {begin})"
        case ["level", piece, level]: return f"(Level {piece} {level})"
        case ["levels", digits]: return f"(Levels ({items(digits)}))"
        case ["inorderfrom", level]: return f"(InOrderFrom {level})"
        case ["reach", level]: return f"(Reach {level})"
        case ["alone", answer]: return f"(Alone {'true' if answer == 'yes' else 'false'})"
        case ["inorder", answer]: return f"(InOrder {'true' if answer == 'yes' else 'false'})"
        case ["next", word]: return f"(Next {word})"
        case ["block", piece, begin, text]: return f"(Arrived {piece} {begin} {in_bytes(text)})"
        case ["settle", piece, text]: return f"(Settle {piece} {in_bytes(text)})"
        case [word]: return word.capitalize()
    raise ValueError(f"no call: {words}")


def reply(words: list[str]) -> str:
    match words:
        case ["noted", answer]: return f"(Noted {'true' if answer == 'yes' else 'false'})"
        case ["refused", reason]: return f"(Refused {reason})"
        case ["request" | "cancel" | "inflight" as kind, piece, begin, length]: return f"({BLOCKS[kind]} (block_of {piece} {begin} {length}))"
        case [word]: return PLAIN[word]
    raise ValueError(f"no reply: {words}")


def entry(line: str, torrent: str) -> str:
    call, said = (side.split() for side in line.split("="))
    return f"entry {call[0]} {action(call[1:], len(TORRENTS[torrent][2]))} {reply(said)}"


def imports(line: str, width: int) -> str:
    """The import as lines that are not too long: of a list of names, so many on each."""
    if len(line) <= width:
        return line
    path, names = line.rstrip("};").split("{")
    end = line[len(line.rstrip("};")):]
    lines: list[list[str]] = []
    row: list[str] = []
    for name in names.split(", "):
        if row and len(path) + len(", ".join([*row, name])) + 1 + len(end) > width:
            lines.append(row)
            row = []
        row.append(name)
    return "\n".join(f"{path}{{{', '.join(row)}{end}" for row in [*lines, row])


def laid_out(text: str, width: int) -> str:
    """The text with no import of a list that is too long."""
    def is_list(line: str) -> bool:
        return line.startswith(("use ", "ghost use ")) and line.rstrip(";").endswith("}")

    return "\n".join(imports(line, width) if is_list(line) else line for line in text.split("\n"))


def digest(hexadecimal: str) -> str:
    """A digest in two rows."""
    rows = [" ∷ ".join(f"0x{hexadecimal[i:i + 2]}" for i in range(start, start + 20, 2)) for start in (0, 20)]
    return f"{rows[0]}\n    ∷ {rows[1]} ∷ []"


def named(hexadecimal: str) -> str:
    """The name of the content that has this digest."""
    return next(name for name, digest in DIGESTS.items() if digest == hexadecimal)


def entered(rows: list[str]) -> str:
    """The entries as a list. Where a peer joins, shows pieces and unchokes us, the three stand as one row."""
    if not rows:
        return "[]"
    head = re.match(r"entry (\d+) Join Joined\nentry \1 \(Bits (\(.*\))\) \(Noted true\)\nentry \1 Unchoke Quiet$", "\n".join(rows[:3]))
    if head:
        return f"enters {head[1]} {head[2]}\n    ({entered(rows[3:])})"
    return f"{rows[0]} ∷ []" if len(rows) == 1 else f"{rows[0]}\n    ∷ {entered(rows[1:])}"


def listed(rows: list[str]) -> str:
    """The rows as a list in brackets, a line each."""
    return "(" + "\n    ∷ ".join(rows) + " ∷ [])" if rows else "[]"


REASONS = ["NotJoined", "AlreadyJoined", "LateBits", "WrongCount", "NoSuchPiece", "NoSuchBlock", "WrongLength", "NotWaiting", "Stale",
           "NotAsked", "WrongDepth", "WrongLevel"]


def counted(model: Model, worker: str, word: str, text: str) -> str:
    """The reply to a call with so many flags, all of them off."""
    peer = model.peers[int(worker)]
    model.need(word == "wants" or peer.joined, 1)
    model.need(word != "flags" or not peer.late, 3)
    model.need(len(text) == model.pieces, 4)
    return {"flags": model.call_bits, "wants": model.call_want, "shown": model.call_haves}[word](peer, set())


def verdict(model: Model, piece: int, text: str) -> str:
    """The reply to a verdict of these bytes."""
    if piece < model.pieces and model.waits(piece):
        model.need(b"".join(model.held[block] for block in model.blocks[piece]) == bytes.fromhex(text), 9)
    return model.call_settle(model.peers[0], piece)


def allowed(model: Model, call: str, given: str) -> set[str]:
    """The replies that the plain model allows to the call. It goes on from the one that was given."""
    try:
        match call.split():
            case [worker, "next", _]:
                peer = model.peers[int(worker)]
                model.need(peer.joined, 1)
                kind, blocks = model.options(peer)
                replies = {f"{kind} {block}" for block in blocks} or {kind}
                if given in replies:
                    model.follow(peer, given)
                return replies
            case [worker, ("flags" | "wants" | "shown") as word, text]: return {counted(model, worker, word, text)}
            case [_, "settle", piece, text]: return {verdict(model, int(piece), text)}
            case [worker, "levels", digits]: return {model.call_levels(model.peers[int(worker)], [*map(int, digits)])}
        reply = model.play(call.replace(" X", " " + "61" * 16384))
    except Refused as refused:
        reply = f"refused {refused.args[0]}"
    return {f"refused {REASONS[int(reply.split()[1]) - 1]}" if reply.startswith("refused") else reply}


def judge(name: str) -> None:
    """Stops where the rules don't allow a line of the example, or allow a wrong one."""
    torrent, workers, lines = EXAMPLES[name]
    piece_length, total, hashes = TORRENTS[torrent]
    model = Model(Torrent(piece_length, total, tuple(map(bytes.fromhex, hashes))), workers, rules_of(name), with_losses=True)
    wrongs = [(before, line) for example, before, line in WRONG.values() if example == name]
    wrongs += [WRONG_IN_AUDITS[name]] if name in WRONG_IN_AUDITS else []
    for at, line in enumerate([*lines, ""]):
        for _, wrong in (pair for pair in wrongs if pair[0] == at):
            call, reply = wrong.split(" = ")
            if reply in allowed(copy.deepcopy(model), call, reply):
                raise SystemExit(f"{name}: after {at} entries the wrong `{wrong}` is allowed")
        if line:
            call, reply = line.split(" = ")
            replies = allowed(model, call, reply)
            if reply not in replies:
                raise SystemExit(f"{name}: after {at} entries `{line}` isn't allowed, but {', '.join(sorted(replies))}")


PARTS = ["first_examples", "second_examples", "third_examples", "fourth_examples"]


def parts() -> list[tuple[str, list[str]]]:
    """The names of the examples as lists with about as many lines each: the prover computes each list by itself."""
    lines = {name: len(example[2]) for name, example in EXAMPLES.items()}
    share = sum(lines.values()) / len(PARTS)
    found: list[tuple[str, list[str]]] = [(part, []) for part in PARTS]
    before = 0
    for name in EXAMPLES:
        found[int(before // share)][1].append(name)
        before += lines[name]
    return found


def main() -> None:
    spec = open("tools/examples_head.antt.txt").read()
    for name, hexadecimal in DIGESTS.items():
        spec += f"abbrev digest_of_{name} : List ℕ\ndigest_of_{name} =\n    {digest(hexadecimal)}\n\n"
    for name, (piece_length, total, hashes) in TORRENTS.items():
        digests = " ∷ ".join([*(f"digest_of_{named(each)}" for each in hashes), "[]"])
        spec += (f"abbrev torrent_{name} : Layout\n"
                 f"torrent_{name} = record {{ piece_length = {piece_length}; total = {total}; hashes = {digests} }}\n\n")
    for name, (torrent, _, lines) in EXAMPLES.items():
        wrongs = [(label, before, line) for label, (example, before, line) in WRONG.items() if example == name]
        spec += "".join(f"-- {before}: {label.replace('_', ' ')}\n" for label, before, _ in wrongs)
        entries = f"({entered([entry(line, torrent) for line in lines])})"
        spec += f"abbrev {name} : Example\n{name} = example {setting(name)}\n    {entries}\n    "
        spec += listed([f"({before}, {entry(line, torrent)})" for _, before, line in wrongs]) + "\n\n"
    for name, names in parts():
        spec += f"abbrev pub {name} : List Example\n{name} =\n    " + "\n    ∷ ".join([*names, "[]"]) + "\n\n"
    joined = " ++ (".join(PARTS[:-1]) + f" ++ {PARTS[-1]}" + ")" * (len(PARTS) - 2)
    spec += f"abbrev pub examples : List Example\nexamples = {joined}\n"
    open("crates/bt_history/specs/Examples.antt", "w").write(laid_out(spec.rstrip(), 150) + "\n")


def plain(text: str) -> str:
    """The bytes as the tests spell them."""
    return "whole" if text == "X" else bytes.fromhex(text).decode()


def plain_line(line: str) -> str:
    """The line as the tests of `audit` spell it."""
    call, reply = line.split(" = ")
    match call.split():
        case [worker, "flags", text]: call = f"{worker} no-bits-of {len(text)}"
        case [worker, "wants", text]: call = f"{worker} want-none-of {len(text)}"
        case [worker, "shown", text]: call = f"{worker} haves-none-of {len(text)}"
        case [*words, "block", piece, begin, text]: call = " ".join([*words, "block", piece, begin, plain(text)])
        case [*words, "settle", piece, text]: call = " ".join([*words, "settle", piece, plain(text)])
    return f"{call} = {reply}"


def is_of_a_desk(lines: list[str]) -> bool:
    """Whether a desk can make the calls of these lines: it loses nothing."""
    return not any(line.split()[1] in LOSSES for line in lines)


def audits() -> None:
    texts = []
    for name, (torrent, workers, lines) in EXAMPLES.items():
        if not is_of_a_desk(lines):
            continue
        piece_length, total, hashes = TORRENTS[torrent]
        wrongs = [(before, line) for example, before, line in WRONG.values() if example == name]
        wrongs += [WRONG_IN_AUDITS[name]] if name in WRONG_IN_AUDITS else []
        contents = " ".join(map(named, hashes))
        texts.append("\n".join([
            name.replace("_", " "),
            f"{piece_length} {total} {contents}",
            " ".join(map(str, [workers, *map(int, astuple(rules_of(name)))])),
            *(plain_line(line) for line in lines),
            "but",
            *(f"{before} {plain_line(line)}" for before, line in wrongs),
        ]))
    text = open("tools/audits_head.rt.txt").read()
    text += f"pub const COUNT: u32 = {len(texts)};\n\npub const EXAMPLES: &str = \"\\\n" + "\n\n".join(texts) + "\";\n"
    open("crates/bt_picker_tests/src/tests/examples.rt", "w").write(text)


for example in EXAMPLES:
    judge(example)
main()
audits()
