"""The parts of tools/release: gate (what was proved), inside (what of the kit is in the library, its licenses, the
SBOM), layouts and pages (what lies where in each archive), archives (the same bytes each time), python (the sdist and
the wheel), elf (what a linked file asks for), made (all of it, with its sums). Those of tools/release_test: self_test
and rooms, with slider_in_kernels.py, which tools/release_try runs."""
