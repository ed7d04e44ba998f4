"""The driver: what `lockdep` does around the proved program. It records a command, says what was recorded, and reports what was found:
findings as values, their places in the source, and each form that shows them.

What every run imports is kept small: these modules use neither `re` nor `dataclasses`, `typing` or `subprocess`, each of which takes longer to
import than all that a run without a finding needs. A module that is only needed once something was found, or for one form of output, is imported where
it is needed.

A package knows those before it in PACKAGES, and no later one."""

PACKAGES = ("base", "binaries", "record", "finish", "program", "places", "ask", "known", "say", "gather", "provoke", "cli")
