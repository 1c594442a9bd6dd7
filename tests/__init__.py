"""Tests that stand beside the engine; run them from the repository's root."""
