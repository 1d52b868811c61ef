"""The tests of the built programs, the tools and the script; `tests/run` runs them. Tools and benches are at hand as modules."""
import os
import sys

ROOT = os.path.dirname(os.path.dirname(os.path.realpath(__file__)))
sys.path += [os.path.join(ROOT, name) for name in ("tools", "bench")]
