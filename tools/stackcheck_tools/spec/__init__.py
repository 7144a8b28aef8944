"""Specs, whose lines name sites by functions, and the lines of assumption files that are made of them."""
