"""How fast RC4 is in Python: `python3 -m fetch.tests.rc4_speed` in the folder `clients`. Encrypted peers have all bytes go through it."""

from __future__ import annotations

import time

LENGTH = 1 << 20  # bytes
TRIES = 5


def rc4(key: bytes, data: bytes) -> bytes:
    """The data, enciphered or deciphered."""
    state, place = list(range(256)), 0
    for number in range(256):
        place = (place + state[number] + key[number % len(key)]) & 255
        state[number], state[place] = state[place], state[number]
    result, number, place = bytearray(len(data)), 0, 0
    for at, byte in enumerate(data):
        number = (number + 1) & 255
        first = state[number]
        place = (place + first) & 255
        other = state[place]
        state[number], state[place] = other, first
        result[at] = byte ^ state[(first + other) & 255]
    return bytes(result)


def main() -> None:
    """Prints the megabytes of a second, of the quickest try."""
    assert rc4(b"Key", b"Plaintext").hex() == "bbf316e8d940af0ad3"  # a known example
    least = float("inf")
    for _ in range(TRIES):
        begin = time.perf_counter()
        rc4(bytes(20), bytes(LENGTH))
        least = min(least, time.perf_counter() - begin)
    print(f"RC4 in Python: {LENGTH / least / 1e6:.1f} MB a second")


if __name__ == "__main__":
    main()
