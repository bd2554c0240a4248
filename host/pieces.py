"""./list writes in pieces of some kilobytes, and on a terminal it holds nothing back."""
import os
import pty
import socket
import subprocess

ROOT = os.path.join(os.path.dirname(os.path.abspath(__file__)), "..")
# at least 1,000 readings of 255 entries each: two ways to read each a
MANY = b"(a|a)*\n" + b"a" * 255 + b"\n"
# each of the first 1,000 ends in its number, less one, in binary with the digits 1 and 2
READINGS = [",".join("12"[i >> k & 1] for k in reversed(range(255))) for i in range(1000)]
PRINTED = "\n".join(["leaves 2 nodes 4", *READINGS, "more"]) + "\n"


def started(output, text):
    program = subprocess.Popen([os.path.join(ROOT, "list")], stdin=subprocess.PIPE, stdout=output)
    program.stdin.write(text)
    program.stdin.close()
    return program


def pieces():
    """Each write to a socket that keeps them apart, as a piece."""
    ours, theirs = socket.socketpair(socket.AF_UNIX, socket.SOCK_SEQPACKET)
    program = started(theirs, MANY)
    theirs.close()
    found = []
    while piece := ours.recv(1 << 20):
        found.append(piece)
    return program.wait(), found


def terminal():
    """What a terminal shows, its line ends as they were written."""
    ours, theirs = pty.openpty()
    program = started(theirs, b"a*a*\naa\n")
    os.close(theirs)
    shown = b""
    try:
        while part := os.read(ours, 4096):
            shown += part
    except OSError:
        pass  # the terminal has no one left
    return program.wait(), shown.decode().replace("\r\n", "\n")


status, found = pieces()
assert status == 0, status
assert b"".join(found).decode() == PRINTED
lengths = [len(piece) for piece in found]
assert min(lengths[:-1]) >= 4096 and max(lengths) <= 65536, lengths
assert terminal() == (0, "leaves 2 nodes 5\n1,1\n1,2\n2,2\nend 3\n"), terminal()
print(f"pieces: {len(PRINTED)} bytes in {len(lengths)} writes")
