"""Where tools/numbers finds numbers."""
