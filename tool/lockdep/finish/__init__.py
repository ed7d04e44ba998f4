"""From what a program's processes wrote to the traces and the summary."""
