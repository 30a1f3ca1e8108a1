"""A caller in Python by the package: packs two sheets, asks for pages until its book is closed, and prints the pairs. It runs wherever the kit runs.

    PYTHONPATH=python python3 clients/client.py
"""
import ring

with ring.Ring() as r:
    pumps = r.pack([(1, 0, 0), (2, 10, 0)], edition=7)
    chambers = r.pack([(5, 4, 0), (6, 16, 1)], edition=9)
    book = r.book(ring.Source(pumps.edition, chambers.edition), room=8)
    for page in book.follow(lambda key: r.page(pumps, chambers, key, size=2)):
        pass
    for pair in book.pairs():
        print(*pair)
    print("end", book.held)
