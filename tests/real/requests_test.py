"""Requests by hand: pipelining, what is kept open, what is continued, what is refused."""
import unittest

from support import (
    Server,
    answer,
    get,
    post,
    read_answer,
    read_exactly,
    read_to_end,
    refusal,
    request,
    undated,
)

CONTINUE = b"HTTP/1.1 100 Continue\r\n\r\n"


class Requests(unittest.TestCase):
    def setUp(self):
        self.server = self.enterContext(Server())

    def test_pipelined_requests_are_answered_in_order(self):
        bodies = [b"%d" % number * number for number in range(1, 40)]
        asked = b"".join(map(post, bodies))
        answered = b"".join(map(answer, bodies))
        self.assertEqual(self.server.exchange(asked), answered)
        for cut in (1, 20, len(asked) // 2, len(asked) - 1):
            self.assertEqual(self.server.exchange(asked[:cut], asked[cut:]), answered)

    def test_a_request_that_comes_byte_by_byte(self):
        asked = post(b"hello", "Expect: 100-continue")
        pieces = [asked[at : at + 1] for at in range(len(asked))]
        self.assertEqual(self.server.exchange(*pieces), CONTINUE + answer(b"hello"))

    def test_nothing_is_answered_behind_the_one_that_closes(self):
        asked = post(b"a") + post(b"b", "Connection: close") + post(b"c")
        self.assertEqual(
            self.server.exchange(asked), answer(b"a") + answer(b"b", connection="close")
        )

    def test_connections_are_kept_by_version(self):
        with self.server.connect() as link:
            for _ in range(3):
                link.sendall(get("1.1"))
                self.assertEqual(read_answer(link), answer())
            for _ in range(3):
                link.sendall(get("1.0", "Connection: Keep-Alive"))
                self.assertEqual(read_answer(link), answer(version="1.0", connection="Keep-Alive"))
            link.sendall(get("1.0"))
            self.assertEqual(undated(read_to_end(link)), answer(version="1.0", connection="close"))

    def test_a_request_that_closes_ends_the_connection(self):
        with self.server.connect() as link:
            link.sendall(get("1.1", "Connection: close"))
            self.assertEqual(undated(read_to_end(link)), answer(connection="close"))

    def test_a_body_is_waited_for_behind_continue(self):
        with self.server.connect() as link:
            asked = post(b"hello", "Expect: 100-continue")
            link.sendall(asked[:-5])
            self.assertEqual(read_exactly(link, len(CONTINUE)), CONTINUE)
            link.sendall(asked[-5:])
            self.assertEqual(read_answer(link), answer(b"hello"))

    def test_continue_stands_behind_the_answers_before_it(self):
        asked = post(b"a") + post(b"b", "Expect: 100-continue")
        self.assertEqual(self.server.exchange(asked), answer(b"a") + CONTINUE + answer(b"b"))

    def test_chunks_by_hand(self):
        head = request("POST", "1.1", "Transfer-Encoding: chunked")
        body = b"5;x=y\r\nhello\r\n00A\r\n, wide wor\r\n2\r\nld\r\n0\r\nTrailer: t\r\n\r\n"
        self.assertEqual(
            self.server.exchange(head, body, get("1.1")), answer(b"hello, wide world") + answer()
        )

    def test_a_length_beside_chunks_closes(self):
        head = request("POST", "1.1", "Content-Length: 3", "Transfer-Encoding: chunked")
        answered = self.server.exchange(head + b"5\r\nhello\r\n0\r\n\r\n" + get("1.1"))
        self.assertEqual(answered, answer(b"hello", connection="close"))

    def test_an_end_in_the_middle_is_answered_with_nothing(self):
        for part in (get("1.1")[:-1], post(b"hello")[:-1], b"GET / HTTP/1.1\nHost: a\n\n"):
            self.assertEqual(self.server.exchange(part), b"")

    def test_refusals(self):
        for asked, expected in (
            (
                b"GET / HTTP/1.1 x\r\n\r\n",
                refusal("400 Bad Request", "Malformed request line", "1.0"),
            ),
            (b"GET /\r\n\r\n", refusal("400 Bad Request", "Malformed request line", "1.0")),
            (
                b"get / HTTP/1.1\r\n\r\n",
                refusal("400 Bad Request", "Malformed HTTP method", "1.0"),
            ),
            (
                b"GET / HTTP/11\r\n\r\n",
                refusal("400 Bad Request", "Malformed HTTP version", "1.0"),
            ),
            (b"GET /\xff HTTP/1.1\r\n\r\n", refusal("400 Bad Request", "Bad URI", "1.0")),
            (get("1.1", "A b: c"), refusal("400 Bad Request", "Malformed header line")),
            (get("1.1", "A: \0"), refusal("400 Bad Request", "Malformed header value")),
            (
                post(b"hello", "Content-Length: 5"),
                refusal("400 Bad Request", "Content-Length is invalid"),
            ),
            (
                request("POST", "1.1", "Transfer-Encoding: gzip, chunked"),
                refusal("501 Not Implemented", "Transfer-Encoding requested is not supported."),
            ),
            (
                request("POST", "1.0", "Transfer-Encoding: chunked"),
                refusal("400 Bad Request", "Transfer-Encoding in an HTTP/1.0 request", "1.0"),
            ),
            (
                request("POST", "1.1", "Transfer-Encoding: chunked") + b"F" * 17,
                refusal("400 Bad Request", "Invalid chunk size"),
            ),
            (
                request("POST", "1.1", "Transfer-Encoding: chunked") + b"1\r\nab",
                refusal("400 Bad Request", "Chunk not properly terminated"),
            ),
        ):
            with self.subTest(asked=asked):
                self.assertEqual(self.server.exchange(asked), expected)
                self.assertEqual(self.server.exchange(post(b"a") + asked), answer(b"a") + expected)

    def test_a_refused_head_is_answered_without_a_body(self):
        asked = request("HEAD", "1.1", "Content-Length: x")
        whole = refusal("400 Bad Request", "Content-Length is invalid")
        self.assertEqual(self.server.exchange(asked), whole[: whole.index(b"\r\n\r\n") + 4])


class Limits(unittest.TestCase):
    def test_heads(self):
        with Server("--max-request-header-size=64") as server:
            front, end = b"GET / HTTP/1.0\r\nX: ", b"\r\n\r\n"
            self.assertEqual(
                server.exchange(front + b"a" * 40 + end), answer(version="1.0", connection="close")
            )
            expected = refusal(
                "431 Request Header Fields Too Large", "exceeds max_header of 64", "1.0"
            )
            self.assertEqual(server.exchange(front + b"a" * 41 + end), expected)

    def test_bodies(self):
        with Server("--max-request-body-size=100") as server:
            expected = refusal("413 Request Entity Too Large", "exceeds max_body of 100")
            self.assertEqual(server.exchange(post(b"a" * 99)), answer(b"a" * 99))
            self.assertEqual(server.exchange(post(b"a" * 100)), expected)
            head = request("POST", "1.1", "Transfer-Encoding: chunked")
            # 4, 88 and 7 bytes of chunks are 99.
            self.assertEqual(
                server.exchange(head + b"58\r\n" + b"a" * 88 + b"\r\n0\r\n\r\n"), answer(b"a" * 88)
            )
            self.assertEqual(
                server.exchange(head + b"59\r\n" + b"a" * 89 + b"\r\n0\r\n\r\n"), expected
            )

    def test_a_client_that_goes_on_sending_reads_its_refusal_and_no_reset(self):
        with Server("--max-request-body-size=100") as server, server.connect() as link:
            link.sendall(post(b"a" * 4000000))
            expected = refusal("413 Request Entity Too Large", "exceeds max_body of 100")
            self.assertEqual(undated(read_to_end(link)), expected)
