"""Where the records and locks of a recording are in the source."""
