#!/bin/sh
# Each line of weight5.txt with its reply, modulo a prime of 61 bits.
mzv reduce 5 4 2305843009213693951 lex <examples/weight5.txt | paste -d '=' examples/weight5.txt - | sed 's/=/  ->  /'
