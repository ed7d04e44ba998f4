"""The proved program, which is asked, and its answers as values."""
