#!/usr/bin/env python3
"""Writes the bytes that are read in hexadecimal, such as those of examples/weight3.hex, the file of a table.

    examples/bytes.py < FILE.hex > FILE
"""
import sys

sys.stdout.buffer.write(bytes.fromhex(sys.stdin.read()))
