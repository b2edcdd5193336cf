"""The parts of tools/fuzz: scripts (of chance), mutants (what is played), plays (who plays it, and whether they differ)
and shrink (a script made small); model (what must be written for a script), with lines (what a line asks for), values
(where buffers go) and json_texts (JSON whose numbers are texts); and self_test (of scripts and model)."""
