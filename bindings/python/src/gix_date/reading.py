"""Calls that read a time of a text."""

from __future__ import annotations

from ._library import is_canonical_header, parse, parse_carefully, parse_header

__all__ = ["is_canonical_header", "parse", "parse_carefully", "parse_header"]
