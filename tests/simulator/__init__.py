"""The second simulator: a call file to its listing, by the rules of
docs/RULES.md, and sharing no code with the programs."""
