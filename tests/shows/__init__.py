"""Shows by chance, answered by domeshow and by the second simulator
(rules 25.1 to 25.3): the same refusal, and the same plan byte for byte or the
same refusal of each link that is used.  Show files by chance through what
./dome is made of, whose plan files and index are compared likewise; and runs
of those that pass, in which no bound is passed.

The gate has some hundred of each.  More by hand, of seeds from SEED on:

  tests/shows/compare COUNT SEED
  tests/shows/compare COUNT SEED files
  tests/shows/compare COUNT SEED runs
"""
