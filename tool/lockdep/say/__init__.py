"""What a person reads: text, page, SARIF, JUnit, JSON."""
