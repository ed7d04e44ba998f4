"""A recording: its folder, its recorder, how it begins, what was counted, and what is known of it."""
