"""What every other package uses: words, files, processes, messages."""
