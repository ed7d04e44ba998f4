"""Where this tool is: in a checkout its top, else libexec/lockdep."""
from __future__ import annotations

import os

HOME = os.path.dirname(os.path.dirname(os.path.dirname(os.path.dirname(os.path.realpath(__file__)))))
