"""The answers that a table declares, and files that are no table."""
import tempfile
import unittest

from support import free_port, not_found, refusal, request, response, run, serve

TABLE = """
[[row]]
path = "/cut"
pieces = ["abcd"]
length = 3

[[row]]
path = "/short"
pieces = ["abc"]
length = 5

[[row]]
path = "/fails"
fail = true

[[row]]
path = "/breaks"
pieces = ["abc"]
fail = true

[[row]]
path = "/whole"
pieces = ["hello"]
whole = true

[[row]]
path = "/pieces"
pieces = ["a", "bc"]

[[row]]
path = "/made"
method = "POST"
status = "201 Created"
fields = [["Location", "/whole"]]
"""

TEXT = "text/plain; charset=utf-8"


class Table(unittest.TestCase):
    def setUp(self):
        file = self.enterContext(tempfile.NamedTemporaryFile("w", suffix=".toml"))
        file.write(TABLE)
        file.flush()
        self.server = serve(self, "table", file.name)

    def ask(self, *paths, method="GET", version="1.1"):
        return self.server.exchange(*(request(method, version, path=path) for path in paths))

    def test_no_more_than_the_declared_length_is_sent(self):
        cut = response("200 OK", b"abc", "1.1", None, TEXT)
        self.assertEqual(self.ask("/cut", "/cut"), cut * 2)

    def test_an_answer_that_lacks_bytes_closes(self):
        whole = response("200 OK", b"abcde", "1.1", None, TEXT)
        self.assertEqual(self.ask("/short", "/cut"), whole[:-2])

    def test_a_failure_before_the_head(self):
        text = "The server encountered an unexpected internal server error"
        self.assertEqual(self.ask("/fails", "/cut"), refusal("500 Internal Server Error", text))

    def test_without_a_length_the_answer_is_chunked_and_closes(self):
        head = (
            b"HTTP/1.1 200 OK\r\nConnection: close\r\nContent-Type: text/plain; charset=utf-8\r\n"
            b"Server: waitress\r\nTransfer-Encoding: chunked\r\n\r\n"
        )
        self.assertEqual(self.ask("/pieces", "/cut"), head + b"1\r\na\r\n2\r\nbc\r\n0\r\n\r\n")
        # Without its last chunk the client sees that it isn't whole.
        self.assertEqual(self.ask("/breaks", "/cut"), head + b"3\r\nabc\r\n")

    def test_without_a_length_an_old_answer_ends_with_the_connection(self):
        head = (
            b"HTTP/1.0 200 OK\r\nConnection: close\r\nContent-Type: text/plain; charset=utf-8\r\n"
            b"Server: waitress\r\n\r\n"
        )
        self.assertEqual(self.ask("/pieces", version="1.0"), head + b"abc")

    def test_head_is_what_get_has_without_the_body(self):
        whole = response("200 OK", b"hello", "1.1", None, TEXT)
        self.assertEqual(self.ask("/whole", "/whole"), whole * 2)
        self.assertEqual(self.ask("/whole", "/whole", method="HEAD"), whole[:-5] * 2)

    def test_another_method_status_and_fields(self):
        made = b"HTTP/1.1 201 Created\r\nContent-Length: 0\r\nLocation: /whole\r\nServer: waitress"
        self.assertEqual(self.ask("/made", method="POST"), made + b"\r\n\r\n")

    def test_what_no_row_fits(self):
        self.assertEqual(self.ask("/no", "/made", "/cut/"), not_found() * 3)


class NoTable(unittest.TestCase):
    def reason(self, name):
        ended = run("--host=127.0.0.1", f"--port={free_port()}", "table", name)
        self.assertEqual((ended.returncode, ended.stdout), (2, b""))
        front = "waitress-serve: the application could not be made: "
        said = ended.stderr.decode()
        self.assertTrue(said.startswith(front) and said.endswith("\n"), said)
        return said[len(front) : -1]

    def test_a_file_that_is_not_there(self):
        self.assertEqual(self.reason("/no/such/file"), "no such file")

    def test_files_that_are_no_table(self):
        for text, reason in (
            ("row = ", "the file is not TOML"),
            ("a = 1", "the file is not a table"),
            ('[[row]]\npth = "/"\n', "row 1 is bad"),
            ('[[row]]\npath = "/"\n[[row]]\npath = "no slash"\n', "row 2 is bad"),
            ('[[row]]\npath = "/"\n' * 1001, "too many rows"),
            ("#" * 1048577, "the file is too large"),
        ):
            with tempfile.NamedTemporaryFile("w") as file:
                file.write(text)
                file.flush()
                self.assertEqual(self.reason(file.name), reason)
