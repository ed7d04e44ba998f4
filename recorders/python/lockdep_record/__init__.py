"""Records the order in which a Python program takes its locks, for `lockdep check`. `python3 -m lockdep_record --help` says how.

`__main__` has the command line, `command` runs the command, and `folder` has its traces made when it has ended (tool/lockdep/finish/log_traces.py);
recorders/java does so too. In the command's processes
`hook/sitecustomize.py` has `beginning` replace their locks (`locks`, `library_locks`, `green`). `recording` and `waits` write down what the
tasks do with them: `tasks` has these, `classes` and `places` what they take and where, `log` the file, and `ends` how all that ends."""
