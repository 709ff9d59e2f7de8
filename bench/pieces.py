#!/usr/bin/env python3
"""Runs a program whose standard input is a file, cut in so many pieces of nearly the same length: each read gives one of them, however
busy the machine is. A piece may have as many bytes as the program reads at once.
  bench/pieces.py COUNT FILE PROGRAM WORD..
"""
import pathlib
import socket
import subprocess
import sys

count, data = int(sys.argv[1]), pathlib.Path(sys.argv[2]).read_bytes()
ours, theirs = socket.socketpair(socket.AF_UNIX, socket.SOCK_SEQPACKET)
with subprocess.Popen(sys.argv[3:], stdin=theirs) as program:
    theirs.close()
    for place in range(count):
        ours.sendall(data[len(data) * place // count:len(data) * (place + 1) // count])
    ours.close()
sys.exit(program.returncode)
