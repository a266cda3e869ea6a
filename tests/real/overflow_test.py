"""Bodies and answers that don't stand in memory."""
import os
import re
import tempfile
import threading
import time
import unittest

from support import Server, answer, post, read_answer, request, serve

BODY = bytes(range(256)) * 1200
MEGABYTE = bytes(range(256)) * 4096
CROWD = 64
GIGABYTE = 1 << 30


def files_without_names(server):
    """The files of the program that no folder holds any more."""
    folder = f"/proc/{server.process.pid}/fd"
    links = [os.readlink(f"{folder}/{name}") for name in os.listdir(folder)]
    return [link for link in links if link.endswith(" (deleted)")]


def greatest_memory(server):
    """The most that the program ever kept resident, in bytes."""
    with open(f"/proc/{server.process.pid}/status", encoding="ascii") as status:
        return int(re.search(r"VmHWM:\s*(\d+) kB", status.read())[1]) * 1024


class Overflow(unittest.TestCase):
    def test_bodies_and_answers_come_back_through_files(self):
        rows = ["--inbuf-overflow=1000", "--outbuf-overflow=1000", "--outbuf-high-watermark=0"]
        for options in [rows[:1], rows[1:2], rows[:2], rows]:
            with self.subTest(options=options), Server(*options) as server:
                both = server.exchange(post(BODY), post(b"abc"))
                self.assertEqual(both, answer(BODY) + answer(b"abc"))

    def test_a_chunked_body_comes_back_through_a_file(self):
        head = request("POST", "1.1", "Transfer-Encoding: chunked")
        chunks = b"".join(b"400\r\n" + BODY[i : i + 1024] + b"\r\n" for i in range(0, 262144, 1024))
        with Server("--inbuf-overflow=1000") as server:
            self.assertEqual(server.exchange(head, chunks + b"0\r\n\r\n"), answer(BODY[:262144]))

    def test_files_have_no_names(self):
        with Server("--inbuf-overflow=1000") as server:
            with server.connect() as link:
                text = post(BODY)
                link.sendall(text[:-1])
                # A second answer shows that what was sent so far was read.
                self.assertTrue(server.answers())
                self.assertEqual(len(files_without_names(server)), 1)
                link.sendall(text[-1:])
                self.assertEqual(read_answer(link), answer(BODY))
            self.assertTrue(server.answers())
            self.assertEqual(files_without_names(server), [])

    def test_many_bodies_take_little_memory(self):
        wrong = []

        def echo(server):
            with server.connect() as link:
                link.sendall(post(MEGABYTE))
                if read_answer(link) != answer(MEGABYTE):
                    wrong.append(link)

        with Server() as server:
            clients = [threading.Thread(target=echo, args=[server]) for _ in range(CROWD)]
            for client in clients:
                client.start()
            for client in clients:
                client.join()
            self.assertEqual(wrong, [])
            self.assertLess(greatest_memory(server), 60_000_000)

    def test_a_slow_reader_of_a_large_file_takes_little_memory(self):
        folder = self.enterContext(tempfile.TemporaryDirectory())
        with open(f"{folder}/large", "wb") as file:
            file.truncate(GIGABYTE)
        server = serve(self, "dir", folder)
        with server.connect() as link:
            link.sendall(request("GET", "1.1", "Connection: close", path="/large"))
            read, room = 0, bytearray(1 << 16)
            while count := link.recv_into(room):
                read += count
                if read < GIGABYTE // 16:
                    time.sleep(0.001)
        self.assertGreater(read, GIGABYTE)
        self.assertLess(greatest_memory(server), 40_000_000)
