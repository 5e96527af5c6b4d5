#!/usr/bin/env python3
"""costly.py DIR: writes the files of docs/PERFORMANCE.md, "Steps", that were made to cost a judge as much as they can.

Each is built on examples/handshake.trace: its rows and events, and more of them.
"""
import os
import struct
import sys

here = os.path.dirname(os.path.abspath(__file__))
base = open(os.path.join(here, "../examples/handshake.trace"), "rb").read()
ROWS, EVENTS = struct.unpack_from("<H", base, 14)[0], struct.unpack_from("<H", base, 18)[0]
rows0 = [base[20 + 8 * i : 28 + 8 * i] for i in range(ROWS)]
events0 = [base[20 + 8 * (ROWS + i) : 28 + 8 * (ROWS + i)] for i in range(EVENTS)]

NUMBER, NONCE, PRF, PRIVATE, SESSION, HASH, CRYPT, PAIR = 1, 2, 3, 5, 6, 7, 8, 9
SPY, CLIENT, SERVER = 0, 2, 3
# what the rows of that handshake are
NA, NB, SECRET, MASTER, SID, HELLO_END, REPLY_END, REST, SERVER_KEY = 0, 1, 2, 3, 4, 8, 11, 29, 34
PA, CLIENT_ROW, SERVER_END = 5, 7, 24
FINISHED, SERVER_FINISHED, ACCEPTED, RESUMED = 6, 7, 8, 13


def write(name, rows, events, compromised=()):
    assert len(rows) <= 1024 and len(events) <= 512, name
    head = bytearray(base[:12])
    for agent in compromised:
        head[4 + agent // 8] |= 1 << agent % 8
    head += struct.pack("<HHHH", 20, len(rows), 20 + 8 * len(rows), len(events))
    open(os.path.join(sys.argv[1], name + ".trace"), "wb").write(bytes(head) + b"".join(rows) + b"".join(events))


def add(rows, kind, *fields):
    rows.append(bytes([kind, 0]) + struct.pack("<HHH", *(list(fields) + [0, 0, 0])[:3]))
    return len(rows) - 1


def says(a, b, row):
    return bytes([0, a, b, 0]) + struct.pack("<HH", row, 0)


def notes(a, row):
    return bytes([1, a, 0, 0]) + struct.pack("<HH", row, 0)


def filled(events, one):
    return events + [one] * (512 - len(events))


def repeats():
    write("finished_again", rows0, filled(events0[:7], events0[FINISHED]))
    write("resumed_again", rows0, filled(events0, events0[RESUMED]))
    write("accepted_again", rows0, filled(events0[:9] + [events0[SERVER_FINISHED]] * 250, events0[ACCEPTED]))
    key = struct.unpack_from("<H", rows0[struct.unpack_from("<H", events0[FINISHED], 4)[0]], 2)[0]
    write("oops_again", rows0, filled(events0[:7], says(CLIENT, SPY, key)))


def replies():
    rows, junk = list(rows0), []
    for i in range(250):
        number = add(rows, NUMBER, 60000 + i)
        junk.append(says(SPY, CLIENT, add(rows, PAIR, NB, add(rows, PAIR, number, number))))
    write("like_replies", rows, filled(events0[:7] + junk, events0[FINISHED]))


def hellos():
    rows, junk, replied = list(rows0), [], []
    for i in range(150):
        number = add(rows, NUMBER, 40000 + i)
        junk.append(says(SPY, SERVER, add(rows, PAIR, number, add(rows, PAIR, number, HELLO_END))))
    while len(rows) + 2 <= 1024:
        nonce = add(rows, NONCE, 20000 + len(replied))
        replied.append(says(SERVER, CLIENT, add(rows, PAIR, nonce, REPLY_END)))
    write("like_hellos", rows, events0[:1] + junk + replied)


def told():
    rows, junk = list(rows0), []
    learnt = [notes(SPY, add(rows, PAIR, MASTER, add(rows, SESSION, NA, NB, SECRET)))]
    learnt.append(notes(SPY, add(rows, PAIR, add(rows, PRF, MASTER, NA, NB), SERVER_KEY)))
    for i in range(238):
        text = add(rows, PAIR, add(rows, NUMBER, 50000 + i), REST)
        junk.append(says(SPY, CLIENT, add(rows, CRYPT, SERVER_KEY, add(rows, HASH, text))))
    write("told_often", rows, filled(events0[:9] + learnt + junk, events0[ACCEPTED]), [SERVER])


def secrets():
    rows, junk = list(rows0), []
    own_key = add(rows, PRIVATE, SPY)
    for i in range(250):
        junk.append(says(SPY, SERVER, add(rows, CRYPT, own_key, add(rows, NUMBER, 40000 + i))))
    write("like_secrets", rows, filled(events0[:8] + junk, events0[SERVER_FINISHED]))


def noted():
    # the Spy derives keys from every three of the nonces that it has heard
    rows, opened, derived = list(rows0), [], []
    nonces = [NA, NB]
    for i in range(5):
        nonces.append(add(rows, NONCE, 20000 + i))
        opened.append(says(CLIENT, SERVER, add(rows, PAIR, CLIENT_ROW, add(rows, PAIR, nonces[-1], HELLO_END))))
    for m in nonces:
        for a in nonces:
            for b in nonces:
                if len(rows) + 3 <= 1024 and (m, a, b) != (SECRET, NA, NB):
                    prf = add(rows, PRF, m, a, b)
                    derived.append(notes(SPY, add(rows, PAIR, prf, add(rows, SESSION, a, b, m))))
    write("keys_noted", rows, events0[:2] + opened + derived)


def losses():
    # many sessions of a few nonces: each key is lost after all Finished were said
    rows, opened, finished, lost = list(rows0), [], [], []
    nas, rests = [], []
    for i in range(11):
        nas.append(add(rows, NONCE, 20000 + i))
        opened.append(says(CLIENT, SERVER, add(rows, PAIR, CLIENT_ROW, add(rows, PAIR, nas[-1], HELLO_END))))
        nb = add(rows, NONCE, 30000 + i)
        opened.append(says(SERVER, CLIENT, add(rows, PAIR, nb, REPLY_END)))
        rests.append((nb, add(rows, PAIR, PA, add(rows, PAIR, CLIENT_ROW, add(rows, PAIR, nb, SERVER_END)))))
    for na in nas:
        for nb, rest in rests:
            if len(rows) + 8 > 1024 or len(events0) + len(opened) + len(finished) + len(lost) + 4 > 512:
                break
            text = add(rows, PAIR, SID, add(rows, PAIR, MASTER, add(rows, PAIR, na, rest)))
            hash_row = add(rows, HASH, text)
            for role, a, b in (0, CLIENT, SERVER), (1, SERVER, CLIENT):
                rows.append(bytes([SESSION, role]) + struct.pack("<HHH", na, nb, MASTER))
                key = len(rows) - 1
                finished.append(says(a, b, add(rows, CRYPT, key, hash_row)))
                lost.append(says(a, SPY, key))
    write("keys_lost", rows, events0[:10] + opened + finished + lost)


def bucket():
    rows, seen = [], set()
    for agent in range(64):
        rows.append(bytes([0, 0]) + struct.pack("<HHH", agent, 0, 0))
    for value in range(100):
        add(rows, NUMBER, value)
    while len(rows) < 1024:
        for x in range(len(rows)):
            y = (5 - 97 * PAIR - 7 * x) * pow(61, -1, 1024) % 1024
            if y < len(rows) and (x, y) not in seen:
                seen.add((x, y))
                add(rows, PAIR, x, y)
                break
        else:
            add(rows, NUMBER, 30000 + len(rows))
    write("one_bucket", rows, [says(SPY, CLIENT, 0)] * 512)


def chain(links):
    rows = []
    nonces = [add(rows, NONCE, i) for i in range(9)]
    keys = [add(rows, SESSION, a, b, c) for a in nonces for b in nonces for c in nonces][: links + 1]
    del rows[keys[-1] + 1 :]
    order = [None] * links
    for i in range(links):
        order[i // 2 if i % 2 == 0 else links - 1 - i // 2] = i
    where = {i: add(rows, CRYPT, keys[i], keys[i + 1]) for i in order}
    write("up_and_down", rows, [says(2, 3, where[i]) for i in reversed(range(links))] + [says(2, 3, keys[0])])


repeats()
replies()
hellos()
told()
secrets()
noted()
losses()
bucket()
chain(505)
