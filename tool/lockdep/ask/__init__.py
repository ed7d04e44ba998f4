"""What a recording's traces are asked, and what is found."""
