"""Addresses of the web. What speaks with its servers is imported where somebody does, so that all others start sooner."""

from __future__ import annotations

AGENT = "piecepick-fetch"
SCHEMES = ("http://", "https://")


def is_address(text: str) -> bool:
    """Whether it is an address of the web."""
    return text.lower().startswith(SCHEMES)
