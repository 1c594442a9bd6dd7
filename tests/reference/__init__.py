"""A second implementation of document 01, apart from the engine: see README.md."""
