# SPDX-License-Identifier: Apache-2.0
"""A client of dqlite, by its protocol, without a library: what examples/dqlite/run asks of a node.

A message is a head of 8 bytes and a body: its length in words of 8 bytes, its kind, a revision, and two bytes of nothing. Numbers are
little-endian. A text ends with a null byte, and is filled up to a whole word.
"""
import socket, struct

VERSION = 1
# What is asked.
LEADER, OPEN, EXEC_SQL, QUERY_SQL, ADD, ASSIGN, DUMP, CLUSTER, TRANSFER = 0, 3, 8, 9, 12, 13, 15, 16, 17
# What is answered.
FAILURE, SERVER, SERVERS, DATABASE, RESULT, ROWS, EMPTY, FILES = 0, 1, 3, 4, 6, 7, 8, 9
VOTER = 0
# Codes of a failure: SQLite's own, and two of dqlite's.
BUSY, NOT_LEADING, LEADS_NO_MORE = 5, 10250, 10506
# The kinds of a value in a row: a number, a real number, a text, bytes, nothing.
NUMBER, REAL, TEXT, BYTES, NOTHING = 1, 2, 3, 4, 5
# What stands behind the rows of a message: there are no more, or another message has the next ones.
ROWS_END, ROWS_GO_ON = b"\xff" * 8, b"\xee" * 8


class Refused(Exception):
    """The node answered that it couldn't, or may not."""

    def __init__(self, code, why):
        super().__init__({NOT_LEADING: "it doesn't lead", LEADS_NO_MORE: "it leads no more"}.get(code, f"{code} {why}"))
        self.code = code


class Lost(Exception):
    """There is no answer: the node can't be reached, or went away."""


def text_of(text):
    raw = text.encode() + b"\0"
    return raw + bytes(-len(raw) % 8)


def number_of(number):
    return struct.pack("<Q", number)


def values_of(numbers):
    """The numbers that a statement's question marks stand for."""
    head = bytes([len(numbers)]) + bytes([NUMBER]) * len(numbers)
    return head + bytes(-len(head) % 8) + struct.pack(f"<{len(numbers)}q", *numbers) if numbers else b""


class Reader:
    """Reads a body from its start on."""

    def __init__(self, body):
        self.body, self.at = body, 0

    def take(self, length):
        self.at += length
        return self.body[self.at - length : self.at]

    def number(self, form="Q"):
        return struct.unpack("<" + form, self.take(8))[0]

    def text(self):
        text = self.body[self.at : self.body.index(b"\0", self.at)]
        self.take(len(text) + 1 + -(len(text) + 1) % 8)
        return text.decode()

    def value(self, kind):
        if kind == NUMBER:
            return self.number("q")
        if kind == REAL:
            return self.number("d")
        if kind == TEXT:
            return self.text()
        if kind == BYTES:
            length = self.number()
            return self.take(length + -length % 8)[:length]
        self.take(8)
        return None

    def row(self, columns):
        """The next row, or None at the end of this message. The kinds of its values come first, half a byte each."""
        if self.body[self.at : self.at + 8] in (ROWS_END, ROWS_GO_ON):
            return None
        head = self.take((columns + 15) // 16 * 8)
        return [self.value(head[it // 2] >> it % 2 * 4 & 15) for it in range(columns)]


class Client:
    """A connection to one node."""

    def __init__(self, address, patience=10):
        host, port = address.split(":")
        try:
            self.socket = socket.create_connection((host, int(port)), timeout=patience)
            self.socket.sendall(number_of(VERSION))
        except OSError as why:
            raise Lost(f"{address}: {why}") from None
        self.address, self.database = address, None

    def __enter__(self):
        return self

    def __exit__(self, *_):
        self.close()

    def close(self):
        self.socket.close()

    def send(self, kind, body):
        body = body or bytes(8)
        try:
            self.socket.sendall(struct.pack("<IBBH", len(body) // 8, kind, 0, 0) + body)
        except OSError as why:
            raise Lost(f"{self.address}: {why}") from None

    def receive_bytes(self, length):
        got = bytearray()
        while len(got) < length:
            try:
                part = self.socket.recv(length - len(got))
            except OSError as why:
                raise Lost(f"{self.address}: {why}") from None
            if not part:
                raise Lost(f"{self.address}: the connection was closed")
            got += part
        return bytes(got)

    def receive(self, expected):
        """The body of the next message, which has to be of this kind."""
        words, kind, _, _ = struct.unpack("<IBBH", self.receive_bytes(8))
        reader = Reader(self.receive_bytes(words * 8))
        if kind == FAILURE:
            raise Refused(reader.number(), reader.text())
        if kind != expected:
            raise Lost(f"{self.address}: an answer of kind {kind}, and not {expected}")
        return reader

    def ask(self, kind, body, expected):
        self.send(kind, body)
        return self.receive(expected)

    def leader(self):
        """The address of the node that leads, as this one knows it; empty where it knows none."""
        answer = self.ask(LEADER, b"", SERVER)
        answer.number()
        return answer.text()

    def servers(self):
        """Each node of the cluster: its number, its address and its role."""
        answer = self.ask(CLUSTER, number_of(1), SERVERS)
        return [(answer.number(), answer.text(), answer.number()) for _ in range(answer.number())]

    def add(self, node, address):
        """Takes a node into the cluster, and gives it a vote."""
        self.ask(ADD, number_of(node) + text_of(address), EMPTY)
        self.ask(ASSIGN, number_of(node) + number_of(VOTER), EMPTY)

    def transfer(self, node):
        """Has another node lead."""
        self.ask(TRANSFER, number_of(node), EMPTY)

    def open(self, name):
        self.database = self.ask(OPEN, text_of(name) + number_of(0) + text_of(""), DATABASE).number() & 0xFFFFFFFF

    def send_change(self, statement, *numbers):
        self.send(EXEC_SQL, number_of(self.database) + text_of(statement) + values_of(numbers))

    def changed(self):
        """How many rows the change that was sent has changed. At this answer a majority has it in its logs."""
        answer = self.receive(RESULT)
        answer.number()
        return answer.number()

    def change(self, statement, *numbers):
        self.send_change(statement, *numbers)
        return self.changed()

    def query(self, statement, *numbers):
        """The rows that a statement answers."""
        self.send(QUERY_SQL, number_of(self.database) + text_of(statement) + values_of(numbers))
        rows = []
        while True:
            answer = self.receive(ROWS)
            columns = answer.number()
            for _ in range(columns):
                answer.text()
            while (row := answer.row(columns)) is not None:
                rows.append(row)
            if answer.take(8) == ROWS_END:
                return rows

    def dump(self, name):
        """This node's copy of a database: the names and bytes of its files, which dqlite keeps in memory."""
        answer = self.ask(DUMP, text_of(name), FILES)
        files = {}
        for _ in range(answer.number()):
            file = answer.text()
            files[file] = answer.take(answer.number())
        return files
