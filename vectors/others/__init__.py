"""Other people's readers, asked the vectors. `run` writes docs/CONFORMANCE.md."""
