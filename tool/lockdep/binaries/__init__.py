"""What the files of programs show: symbols, source lines, what a program is linked with."""
