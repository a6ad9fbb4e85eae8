"""The same from Python, over a shared library made of the static one:
  bash .ci/staticlib
  cc -shared -o libbihokura.so -Wl,--whole-archive target/staticlib/libregistry_c.a -Wl,--no-whole-archive
  python3 examples/from_python.py ./libbihokura.so saved.blocks < examples/printed-sheet.blocks
"""
import ctypes
import sys

if len(sys.argv) != 3:
    sys.exit("usage: from_python.py LIBRARY FILE < BLOCKS")
library, name = ctypes.CDLL(sys.argv[1]), sys.argv[2]
u64, size = ctypes.c_uint64, ctypes.c_size_t
for call in ("words", "open", "admit_batch", "counts", "findings", "audit", "write"):
    getattr(library, "bihokura_" + call).restype = u64

words = library.bihokura_words()


def refused(refusal, position):
    """Why, and where in the block: no refusal that is of a place in it is told at byte 0."""
    return f"refused with {refusal}" + (f" at byte {position}" if position else "")


def registry(file):
    """A memory with the registry of a file, its containers, policies and pairs. The blocks behind the first come in batches."""
    memory, answers, tally = (u64 * words)(), (ctypes.c_uint16 * 256)(), (u64 * 2)()
    block = file.read(512)
    answer = library.bihokura_open(memory, size(words), block, size(len(block)))
    while not answer >> 56 and (blocks := file.read(65536)):
        lent = (blocks, size(len(blocks)), answers, size(len(answers)), tally)
        answer = library.bihokura_admit_batch(memory, size(words), *lent)
        used = answers[: len(blocks) // 512 * 2]
        for refusal, position in zip(used[::2], used[1::2]):
            if refusal and not answer >> 56:
                print(refused(refusal, position))
    if answer >> 56:
        sys.exit(refused(answer >> 56, answer & 0xFFFF))
    print("blocks taken {}, refused {}".format(*tally))
    counts = library.bihokura_counts(memory, size(words))
    return memory, (counts & 0xFFFF, counts >> 16 & 0xFFFF, counts >> 32)


memory, counts = registry(sys.stdin.buffer)
print("containers {} policies {} pairs {}".format(*counts))
room, last = 256, 0
numbers = (u64 * room)()
put = room
while put == room:
    place = [ctypes.c_uint16(n) for n in (last >> 32, last >> 16 & 0xFFFF, last & 0xFFFF)]
    put = library.bihokura_findings(memory, size(words), *place, numbers, size(room))
    for last in numbers[:put]:
        print(last >> 32, last >> 16 & 0xFFFF, last & 0xFFFF)

length = 512 * (1 + counts[0] + counts[1])
buffer = (ctypes.c_uint8 * length)()
written = library.bihokura_write(memory, size(words), buffer, size(length))
if written >> 56:
    sys.exit("the registry was not written")
try:
    with open(name, "wb") as file:
        file.write(bytes(buffer[:written]))
    with open(name, "rb") as file:
        again, counted = registry(file)
except OSError as error:
    sys.exit(f"{name}: {error.strerror}")
print("written", written, "bytes; read back: containers {} policies {} pairs {}".format(*counted))
audits = [library.bihokura_audit(m, size(words)) for m in (memory, again)]
print("the same counts:", int(counted == counts), "the same audit:", int(audits[0] == audits[1]))
