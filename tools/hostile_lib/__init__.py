"""The parts of tools/hostile: script (a script with the answers that docs/FORMATS.md gives it), what is hostile
(numbers, texts, nesting, keys, buffers, limits, large, cuts), play (the program, and what it gave) and growth (time and
memory of longer and longer lines)."""
