"""Has a forked process begin its own recording, before what `threading` does there: this module is loaded before that one."""
import os


def begin_in_child():
    """`ends` puts its own in the place of this."""


os.register_at_fork(after_in_child=lambda: begin_in_child())
