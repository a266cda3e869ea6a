"""Connections that are slow, idle, many, or gone."""
import contextlib
import os
import resource
import select
import signal
import socket
import threading
import time
import unittest

from support import (
    PATIENCE,
    Server,
    answer,
    free_port,
    get,
    post,
    read_answer,
    read_exactly,
    read_to_end,
    reset,
    undated,
)

# More than the sockets of both ends hold between them.
LARGE = bytes(range(256)) * 65536


def is_silent(link, seconds=0.5):
    """Whether nothing comes for so long, neither bytes nor the end."""
    return not select.select([link], [], [], seconds)[0]


def ends_within(link, seconds):
    """Whether the other end closes, without a byte, in this time."""
    return not is_silent(link, seconds) and link.recv(1) == b""


def wait_until(holds):
    end = time.monotonic() + PATIENCE
    while not holds():
        if time.monotonic() > end:
            raise AssertionError("this never came")
        time.sleep(0.1)


def processor_seconds(process):
    with open(f"/proc/{process.pid}/stat") as stat:
        fields = stat.read().rpartition(")")[2].split()
    return (int(fields[11]) + int(fields[12])) / os.sysconf("SC_CLK_TCK")


def allow_descriptors(count):
    """Lets this process, and those it starts, open so many, or skips the test."""
    _, hard = resource.getrlimit(resource.RLIMIT_NOFILE)
    if hard != resource.RLIM_INFINITY and hard < count:
        raise unittest.SkipTest(f"no process may open {count} descriptors here")
    soft, _ = resource.getrlimit(resource.RLIMIT_NOFILE)
    resource.setrlimit(resource.RLIMIT_NOFILE, (max(soft, count), hard))


class Slow(unittest.TestCase):
    def setUp(self):
        self.server = self.enterContext(Server())

    def test_a_slow_sender_gets_its_answer_and_hinders_nobody(self):
        asked = post(b"hello", "X: " + "a" * 20)
        with self.server.connect() as link:
            for byte in asked[:-1]:
                link.sendall(bytes([byte]))
                time.sleep(0.01)
                if byte == ord("\n"):
                    self.assertTrue(self.server.answers())
            self.assertTrue(is_silent(link))
            link.sendall(asked[-1:])
            self.assertEqual(read_answer(link), answer(b"hello"))

    def test_a_slow_reader_gets_its_answer_and_hinders_nobody(self):
        with self.server.connect() as link:
            link.sendall(post(LARGE))
            time.sleep(0.5)
            self.assertTrue(self.server.answers())
            expected = answer(LARGE)
            head = b""
            while not head.endswith(b"\r\n\r\n"):
                head += read_exactly(link, 1)
            self.assertEqual(undated(head), expected[: -len(LARGE)])
            body = b""
            for _ in range(20):
                body += read_exactly(link, 4096)
                time.sleep(0.01)
            self.assertTrue(self.server.answers())
            body += read_exactly(link, len(LARGE) - len(body))
            self.assertEqual(body, LARGE)

    def test_a_client_that_asks_and_never_reads_is_held_back(self):
        asked = get("1.1") * 10000
        with self.server.connect() as link:
            link.settimeout(2)
            sent = 0
            with self.assertRaises(TimeoutError):
                while sent < 64 * 1024 * 1024:
                    sent += link.send(asked)
            self.assertTrue(self.server.answers())

    def test_large_bodies_at_once(self):
        results = []

        def echo(length):
            with self.server.connect() as link:
                link.sendall(post(LARGE[:length]))
                results.append(read_answer(link) == answer(LARGE[:length]))

        lengths = range(1000000, 3000000, 250000)
        threads = [threading.Thread(target=echo, args=[length]) for length in lengths]
        for thread in threads:
            thread.start()
        for thread in threads:
            thread.join()
        self.assertEqual(results, [True] * len(threads))


class Idle(unittest.TestCase):
    def test_who_keeps_the_server_waiting_is_closed(self):
        with Server("--channel-timeout=3", "--cleanup-interval=1") as server:
            with contextlib.ExitStack() as links:
                silent, half, kept = (links.enter_context(server.connect()) for _ in range(3))
                half.sendall(get("1.1")[:10])
                kept.sendall(get("1.1"))
                self.assertEqual(read_answer(kept), answer())
                self.assertTrue(is_silent(silent, 2))
                for link in (silent, half, kept):
                    self.assertTrue(ends_within(link, 10))
            self.assertTrue(server.answers())

    def test_who_goes_on_sending_is_not(self):
        with Server("--channel-timeout=2", "--cleanup-interval=1") as server:
            with server.connect() as link:
                asked = post(b"0123456789")
                for byte in asked[:10]:
                    link.sendall(bytes([byte]))
                    time.sleep(0.6)
                link.sendall(asked[10:])
                self.assertEqual(read_answer(link), answer(b"0123456789"))

    def test_a_thousand_idle_connections(self):
        allow_descriptors(4096)
        with Server("--connection-limit=1000") as server, contextlib.ExitStack() as links:
            idle = [links.enter_context(server.connect()) for _ in range(990)]
            busy = [links.enter_context(server.connect()) for _ in range(10)]
            for _ in range(20):
                for link in busy:
                    link.sendall(post(b"busy"))
                for link in busy:
                    self.assertEqual(read_answer(link), answer(b"busy"))
            with server.connect() as beyond:
                beyond.sendall(get("1.1"))
                self.assertTrue(is_silent(beyond))
                for link in idle:
                    link.sendall(get("1.1"))
                for link in idle:
                    self.assertEqual(read_answer(link), answer())
                idle[0].close()
                self.assertEqual(read_answer(beyond), answer())


class Many(unittest.TestCase):
    def test_more_connections_than_the_limit_wait_for_their_turn(self):
        with Server("--connection-limit=3") as server, contextlib.ExitStack() as links:
            opened = [links.enter_context(server.connect()) for _ in range(6)]
            for link in opened:
                link.sendall(get("1.1"))
            for link in opened[:3]:
                self.assertEqual(read_answer(link), answer())
            for link in opened[3:]:
                self.assertTrue(is_silent(link, 0.2))
            for gone, served in zip(opened, opened[3:]):
                gone.close()
                self.assertEqual(read_answer(served), answer())

    def test_descriptors_that_are_used_up(self):
        with Server(descriptors=32) as server, contextlib.ExitStack() as links:
            opened = [links.enter_context(server.connect()) for _ in range(60)]
            for link in opened:
                link.sendall(get("1.1"))
            time.sleep(1)
            served = [link for link in opened if not is_silent(link, 0)]
            self.assertTrue(0 < len(served) < 32)
            before = processor_seconds(server.process)
            time.sleep(2)
            self.assertLess(processor_seconds(server.process) - before, 0.2)
            for link in opened:
                self.assertEqual(read_answer(link), answer())
                link.close()
            self.assertTrue(server.answers())

    def test_descriptors_are_given_back(self):
        with Server() as server:
            self.assertTrue(server.answers())
            folder = f"/proc/{server.process.pid}/fd"
            before = len(os.listdir(folder))
            for number in range(300):
                link = server.connect()
                link.sendall(get("1.1", "Connection: close") if number % 2 else post(b"a")[:-1])
                reset(link) if number % 3 else link.close()
            self.assertTrue(server.answers())
            wait_until(lambda: len(os.listdir(folder)) == before)

    def test_an_idle_server_rests(self):
        with Server() as server, server.connect(), server.connect():
            before = processor_seconds(server.process)
            time.sleep(2)
            self.assertLess(processor_seconds(server.process) - before, 0.1)


class Gone(unittest.TestCase):
    def test_a_client_that_goes_in_the_middle_of_a_body(self):
        with Server("--connection-limit=1") as server:
            for leave in (socket.socket.close, reset):
                link = server.connect()
                link.sendall(post(b"hello")[:-2])
                time.sleep(0.1)
                leave(link)
                self.assertTrue(server.answers())

    def test_a_client_that_goes_before_its_answer_is_read_is_no_signal(self):
        with Server("--connection-limit=1") as server:
            for leave in (socket.socket.close, reset):
                link = server.connect()
                link.sendall(post(LARGE) + get("1.1") * 3)
                leave(link)
                self.assertTrue(server.answers())
            self.assertIsNone(server.process.poll())

    def test_a_client_that_stops_reading_in_the_middle_of_an_answer(self):
        with Server("--connection-limit=1") as server:
            for leave in (socket.socket.close, reset):
                link = server.connect()
                link.sendall(post(LARGE))
                read_exactly(link, 100000)
                leave(link)
                self.assertTrue(server.answers())


class Ends(unittest.TestCase):
    def test_the_serve_limit(self):
        with Server("--serve-limit=2") as server:
            with server.connect() as first, server.connect() as second:
                for link in (first, second, first):
                    link.sendall(get("1.1"))
                    self.assertEqual(read_answer(link), answer())
                self.assertIsNone(server.process.poll())
            self.assertEqual(server.process.wait(PATIENCE), 0)
            self.assertEqual(server.process.stderr.read(), b"")
            with self.assertRaises(ConnectionRefusedError):
                server.connect()

    def test_a_signal_ends_it_at_once_and_clients_see_it(self):
        for number in (signal.SIGTERM, signal.SIGINT):
            with Server() as server, server.connect() as link:
                link.sendall(get("1.1"))
                self.assertEqual(read_answer(link), answer())
                server.process.send_signal(number)
                self.assertEqual(server.process.wait(PATIENCE), -number)
                self.assertEqual(read_to_end(link), b"")


class Addresses(unittest.TestCase):
    def test_both_versions_at_one_port(self):
        if not has_version_6():
            self.skipTest("no IPv6 here")
        port = free_port()
        for listen in (f"127.0.0.1:{port} [::1]:{port}", f"[::1]:{port} 127.0.0.1:{port}"):
            with Server(listen=listen):
                for host in ("127.0.0.1", "::1"):
                    with socket.create_connection((host, port), PATIENCE) as link:
                        link.sendall(get("1.1"))
                        self.assertEqual(read_answer(link), answer())

    def test_a_name(self):
        port = free_port()
        with Server(listen=f"localhost:{port}"):
            with socket.create_connection(("localhost", port), PATIENCE) as link:
                link.sendall(get("1.1"))
                self.assertEqual(read_answer(link), answer())

    def test_the_port_is_free_again_at_once(self):
        port = free_port()
        for _ in range(2):
            with Server(listen=f"127.0.0.1:{port}") as server:
                server.port = port
                self.assertTrue(server.answers())


def has_version_6():
    try:
        with socket.create_server(("::1", 0), family=socket.AF_INET6):
            return True
    except OSError:
        return False
