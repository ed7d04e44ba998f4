"""The commands: from a command line to what does it."""
