"""Demand 3, checked on what was played."""
