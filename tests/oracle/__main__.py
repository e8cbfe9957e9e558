"""`python3 -m oracle WORDS..` does what `mzv WORDS..` does."""
import sys

from .program import whole_run

status, written = whole_run(sys.argv[1:], sys.stdin.buffer.read)
sys.stdout.buffer.write(written)
sys.exit(status)
