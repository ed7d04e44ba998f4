"""Lists of known findings, and what of a result they name."""
