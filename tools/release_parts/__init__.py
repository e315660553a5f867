"""The parts of tools/release, one subject each."""
