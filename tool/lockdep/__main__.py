"""Starts the driver: __main__.py COMMAND WORD... Python is called with -I and -S, so that nothing of the user's is in the driver, and with -X utf8, since
what is written into recordings is UTF-8 whatever the locale is."""
import os
import sys

if sys.version_info < (3, 7):
    sys.stderr.write("lockdep: Python 3.7 or later is needed, and python3 is %d.%d\n" % sys.version_info[:2])
    sys.exit(3)
sys.dont_write_bytecode = True
sys.path.insert(0, os.path.dirname(os.path.realpath(__file__)))
from parts import HOME, find_package  # noqa: E402

del sys.path[0]
find_package()
from lockdep.cli.driver import main  # noqa: E402

main(HOME, sys.argv[1:])
