"""The parts of tools/storm: scripts (of chance), log (what a storm wrote), handle (the one-thread manager of the
library, by ctypes), rules and replay (what must hold of a log), plays (the storms run), simulated and self_test (what
must be found)."""
