"""Runs a command whose standard input is a connection that brings the first bytes of a file and is then reset: reset.py FILE COMMAND.."""
import socket
import struct
import subprocess
import sys
import time

with open(sys.argv[1], "rb") as file:
    start = file.read()[:100]
server = socket.create_server(("127.0.0.1", 0))
sender = socket.create_connection(server.getsockname())
receiver, _ = server.accept()
command = subprocess.Popen(sys.argv[2:], stdin=receiver.fileno())
receiver.close()
sender.sendall(start)
time.sleep(2)  # by then the bytes are read, and the next read waits
sender.setsockopt(socket.SOL_SOCKET, socket.SO_LINGER, struct.pack("ii", 1, 0))
sender.close()
sys.exit(command.wait())
