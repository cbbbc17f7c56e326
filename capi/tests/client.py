"""A client of the installed package: lists a function, and fails where package or library are not below a folder.

    client.py FOLDER
"""

import sys

import feddurzai

folder = sys.argv[1]
code = bytes.fromhex("55 4889e5 4883ec20 e8f60f0000 c9 c3 0f87")
wanted = ["push rbp", "mov rbp, rsp", "sub rsp, 0x20", "call 0x402003", "leave", "ret"]
items = list(feddurzai.iterate(64, 0x401000, code))
assert [str(item) for item in items[:-1]] == wanted, items
assert items[-1].kind is feddurzai.ItemKind.TOO_SHORT and items[-1].address == 0x40100F, items[-1]
with open("/proc/self/maps", encoding="utf-8") as maps:
    loaded = {line.split(maxsplit=5)[-1].strip() for line in maps if "libfeddurzai" in line}
for place in (feddurzai.__file__, *loaded):
    assert place.startswith(folder), place
assert loaded
