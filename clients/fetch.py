#!/usr/bin/env python3
"""Downloads a torrent; `fetch.py --help` tells how. The package `fetch` beside this file does it."""

from fetch.main import leave, main

if __name__ == "__main__":
    leave(main())
