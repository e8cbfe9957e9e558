"""A plain second implementation of what `mzv` computes, written from the definitions and not from the program.

Words are strings over `x` and `y`; sums of words are dictionaries from words to residues that are not zero. It needs
Python 3.8 and its standard library alone, and it is slow. `python3 -m oracle WORDS..`, in the folder tests/, does what
`mzv WORDS..` does.
"""
