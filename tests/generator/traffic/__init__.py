"""Traffic: what the calls of a generated file are like.

Each function takes the dice and about how many calls to write, and gives a
call file; seeds.py has the table of them.
"""
