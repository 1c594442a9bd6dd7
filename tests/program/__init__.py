"""The built programs beside the second implementation."""
