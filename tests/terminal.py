"""Runs a command at a terminal and types a text there, if a file is named once that is there: terminal.py TEXT FILE COMMAND...
Prints what is said there, and ends with the command's status."""
import os
import pty
import sys
import time

text, awaited, command = sys.argv[1], sys.argv[2], sys.argv[3:]
child, terminal = pty.fork()
if child == 0:
    os.execv(command[0], command)
while awaited and not os.path.exists(awaited):
    time.sleep(0.1)
os.write(terminal, text.encode())
said = b""
while True:
    try:
        piece = os.read(terminal, 4096)
    except OSError:
        break
    if not piece:
        break
    said += piece
print(said.decode().replace("\r", ""))
sys.exit(os.waitstatus_to_exitcode(os.waitpid(child, 0)[1]) % 256)
