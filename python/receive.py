"""The receiver of fuota.h from Python: python3 python/receive.py library/libfuota.so

A file of 6 bytes in 3 pieces of 2, of which the second is lost and a coded fragment makes it good.
"""
import sys

import fuota

if len(sys.argv) != 2:
    sys.exit("usage: python3 python/receive.py library/libfuota.so")
try:
    library = fuota.Library(sys.argv[1])
except OSError as why:
    sys.exit(f"the library: {why}")
with fuota.Receiver(library=library) as receiver:
    assert receiver.set_up(descriptor=7, nb_frag=3, frag_size=2) == 0
    for number, payload in enumerate(("0801001122", "0803005566", "0804003344"), 1):
        assert receiver.file() is None
        receiver.hear(bytes.fromhex(payload), number)
    print((receiver.file() or b"").hex())
