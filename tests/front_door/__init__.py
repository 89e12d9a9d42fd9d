"""The front door: what a user meets who starts ./play, tests/run or
bench/run, also with something wrong."""
