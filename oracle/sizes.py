"""The numbers that the scripts beside this file share: numbers to a gate, without and with its line, a list's limits, and those of the programs' texts."""
FIELDS, WIDTH = 5, 6
MOST_WIRES, MOST_BITS = 4096, 1024
MOST_BYTES, MOST_GATES = 32768, 896
