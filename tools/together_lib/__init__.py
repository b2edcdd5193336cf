"""The parts of tools/together: lines (a script), driver (the one-thread manager), answers (what a run wrote), rules and
replay (what must hold of it), checking (both), scripts (of chance), plays (the program run), simulated (a true run
without it), falsified and self_test (what must be found)."""
