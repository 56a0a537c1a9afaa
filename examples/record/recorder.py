"""What the recorders share: clients as threads, one clock, values that never repeat, and the file of records.

A recorder hands `main` a class. `Node(port)` is a connection of one client to one node; `write(key, value)` and `read(key)`, which
gives None for absent, raise an exception where no answer came; `close()` ends the connection.
"""
import argparse
import csv
import random
import sys
import threading
import time

COLUMNS = ["client", "op", "key", "value", "start", "finish", "node", "end"]
END = "."  # the last field of each record, so that one that is cut off has too few fields
ZERO = time.monotonic_ns()


def tick():
    """Nanoseconds of one clock, the same for all clients, from 1 on."""
    return time.monotonic_ns() - ZERO + 1


class Client(threading.Thread):
    """One client, which sends one operation after another and keeps a record of each."""

    def __init__(self, node, number, words, ready):
        super().__init__()
        self.node, self.number, self.words, self.ready = node, number, words, ready
        self.chance, self.written, self.records = random.Random(f"{words.run} {number}"), 0, []
        self.links = [node(port) for port in words.ports]

    def run(self):
        self.ready.wait()  # all are connected
        end = time.monotonic() + self.words.seconds
        while time.monotonic() < end:
            is_write = self.chance.random() < self.words.writes
            self.operation(is_write, 0 if is_write else self.chance.choice(self.words.reads), self.chance.choice(self.words.names))

    def operation(self, is_write, place, key):
        op, value, finish = "r", "", ""
        if is_write:
            self.written += 1
            op, value = "w", f"{self.words.run}-{self.number}-{self.written}"
        start = tick()
        try:
            link = self.links[place] = self.links[place] or self.node(self.words.ports[place])
            if is_write:
                link.write(key, value)
            else:
                value = link.read(key) or ""
            finish = tick()
        except Exception as error:
            print(f"client {self.number}: {error!r}", file=sys.stderr)
        self.records.append([self.number, op, key, value, start, finish, self.words.ports[place], END])
        if finish == "":
            self.drop(place)

    def drop(self, place):
        """After an operation with no answer: a new connection next time, since a late answer must not reach another operation."""
        link, self.links[place] = self.links[place], None
        if link:
            link.close()
        time.sleep(0.1)


def warm(first):
    """Writes each key once, and returns when every node shows it."""
    for key in first.words.names:
        first.operation(True, 0, key)
        for link in first.links:
            while link.read(key) != first.records[-1][3]:
                time.sleep(0.05)


def numbers(text):
    return [int(word) for word in text.split(",")]


def main(node, ports, about):
    parser = argparse.ArgumentParser(description=about, epilog="Writes go to the first port.")
    parser.add_argument("file", help="the history that is written")
    parser.add_argument("--run", default=str(int(time.time())), help="new in each run: it stands in front of keys and values")
    parser.add_argument("--ports", type=numbers, default=ports, help="of the nodes, on this machine")
    parser.add_argument("--reads", type=numbers, help="which of the nodes are read, from 0 on; otherwise all")
    parser.add_argument("--clients", type=int, default=8)
    parser.add_argument("--keys", type=int, default=5)
    parser.add_argument("--seconds", type=float, default=10)
    parser.add_argument("--writes", type=float, default=0.5, help="the share of writes among the operations")
    words = parser.parse_args()
    words.reads = words.reads or list(range(len(words.ports)))
    words.names = [f"{words.run}-k{number}" for number in range(words.keys)]
    ready = threading.Barrier(words.clients)
    first, *others = [Client(node, number, words, ready) for number in range(words.clients + 1)]
    warm(first)
    for client in others:
        client.start()
    for client in others:
        client.join()
    with open(words.file, "w", newline="", encoding="utf-8") as out:
        table = csv.writer(out, lineterminator="\n")
        table.writerow(COLUMNS)
        for client in (first, *others):
            table.writerows(client.records)
    print(f"{sum(len(client.records) for client in (first, *others))} records", file=sys.stderr)
