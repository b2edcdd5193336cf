"""The parts of tools/wrong_bodies: edits (which there are), sums (what an outcome depends on), reach (what is named),
record (what was seen refused), choice (which to try), kit (the kit's own judge), room (the copy), lanes (side by side),
trying (the whole of it), self_test, sums_test and sums_room (the repository that these test on)."""
