"""Executed edges: call files with listings that are worked out by hand from
the rules of docs/RULES.md, never taken from a program."""
