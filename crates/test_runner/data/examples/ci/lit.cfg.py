"""A configuration of LLVM's lit, for programs in C: `SOURCES=FOLDER lit /usr/share/bench/examples/ci`. `bench_format.py` says more."""
import os
import sys
import tempfile

FOLDER = os.path.dirname(os.path.abspath(__file__))
sys.dont_write_bytecode = True
sys.path.insert(0, FOLDER)
from bench_format import Program  # The processes of lit find it as a module.

config.name = "bench"
config.suffixes = [".c"]
config.test_format = Program()
config.test_source_root = os.path.abspath(os.environ.get("SOURCES", FOLDER))
config.test_exec_root = tempfile.mkdtemp(prefix="lit-bench-")
