"""How many of each there may be."""

MOST = {"role": 64, "con": 1024, "sort": 256, "rule": 1024, "type": 256}
EACH = 8
SYMBOLS = 256
VARIABLES = 64
NESTING = 32
STEPS = 250
