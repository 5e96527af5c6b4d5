"""The proved judge from Python, over the archive linked as a shared library (README.md, "Embedding it", has the command).

    python3 mirzhelo.py LIBRARY FILE..    asks the three questions about each file, and prints the replies

LIBRARY is a path with a slash in it, as ./libmirzhelo.so: a bare name is looked for among the system's libraries.
"""
import ctypes
import sys

ILLEGAL, REFUSED = 0x10000000, 0x20000000


class Judge:
    def __init__(self, library):
        self.archive = ctypes.CDLL(library)
        size, pointer = ctypes.c_size_t, ctypes.c_char_p
        self.archive.mz_verdict.argtypes = [pointer, size, pointer, size]
        self.archive.mz_knowledge.argtypes = [pointer, size, size, pointer, size]
        self.archive.mz_fault.argtypes = [pointer, size]
        for function in (self.archive.mz_verdict, self.archive.mz_knowledge, self.archive.mz_fault):
            function.restype = ctypes.c_uint32

    def verdict(self, file, room=512):
        """The reply ('accepted', n), ('illegal', n) or ('refused', cause, place), and the rule bytes."""
        rules = ctypes.create_string_buffer(room)
        reply = self.archive.mz_verdict(file, len(file), rules, room)
        return read_reply(reply), rules.raw

    def knowledge(self, file, n, room=1024):
        """None or the refusal, and a byte for each row."""
        marks = ctypes.create_string_buffer(room)
        reply = self.archive.mz_knowledge(file, len(file), n, marks, room)
        return read_reply(reply) if reply else None, marks.raw

    def fault(self, file):
        """Where the part at fault starts, and its length."""
        reply = self.archive.mz_fault(file, len(file))
        return reply & 0xFFFF, reply >> 16


def read_reply(reply):
    if reply & REFUSED:
        return "refused", reply >> 16 & 0xFF, reply & 0xFFFF
    return ("illegal", reply - ILLEGAL) if reply & ILLEGAL else ("accepted", reply)


def show(judge, file):
    reply, rules = judge.verdict(file)
    if reply[0] == "refused":
        print(*reply)
    else:
        rows, events = (int.from_bytes(file[at : at + 2], "little") for at in (14, 18))
        print(f"{reply[0]} {reply[1]}:", *rules[:events])
        refusal, marks = judge.knowledge(file, events)
        if refusal:
            print(*refusal)
        print("known:", *marks[:rows])
    start, length = judge.fault(file)
    print(f"fault: {length} bytes at {start}")


if __name__ == "__main__":
    judge = Judge(sys.argv[1])
    for name in sys.argv[2:]:
        with open(name, "rb") as file:
            show(judge, file.read())
