"""Further runs in which a finding is made to happen."""
