"""slow_pipe.py COMMAND..: runs it with a pipe as standard output that lets no writer wait, and reads that pipe slowly: for a
while not at all, then 64 bytes at a time, then the rest. Prints what came, and ends with the command's status."""
import os, subprocess, sys, time

ours, theirs = os.pipe()
os.set_blocking(theirs, False)
program = subprocess.Popen(sys.argv[1:], stdout=theirs)
os.close(theirs)
time.sleep(0.3)
turn = 0
while True:
    some = os.read(ours, 64 if turn < 200 else 65536)
    if not some:
        break
    sys.stdout.buffer.write(some)
    turn += 1
    if turn < 200:
        time.sleep(0.001)
sys.exit(program.wait())
