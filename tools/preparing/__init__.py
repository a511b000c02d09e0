"""The parts of tools/prepare."""
