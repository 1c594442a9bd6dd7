"""The engine's row call, through the static library, beside the second implementation."""
