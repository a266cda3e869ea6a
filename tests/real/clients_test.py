"""curl and Python's http.client as clients."""
import http.client
import subprocess
import tempfile
import unittest
from email.utils import parsedate_to_datetime
from datetime import datetime, timedelta, timezone

from support import PATIENCE, Server, answer, needs, refusal, undated

# More than one read, one send and one piece of an answer.
BODY = bytes(range(256)) * 1200
FORM = "application/x-www-form-urlencoded"


@needs("curl")
class Curl(unittest.TestCase):
    def setUp(self):
        self.server = self.enterContext(Server())
        self.upload = self.enterContext(tempfile.NamedTemporaryFile())
        self.upload.write(BODY)
        self.upload.flush()

    def curl(self, *words):
        url = f"http://127.0.0.1:{self.server.port}/"
        words = ["curl", "--silent", "--show-error", "--max-time", str(PATIENCE), *words, url]
        return subprocess.run(words, capture_output=True, check=True)

    def connects(self, *words):
        """How many connections curl opened for each of two transfers of the same form."""
        url = f"http://127.0.0.1:{self.server.port}/"
        told = self.curl(
            "--output",
            "/dev/null",
            "--write-out",
            "%{num_connects} ",
            *words,
            "--output",
            "/dev/null",
            url,
        )
        return told.stdout.split()

    def test_get(self):
        self.assertEqual(undated(self.curl("--include").stdout), answer())

    def test_head(self):
        self.assertEqual(undated(self.curl("--head").stdout), answer())

    def test_the_date_is_that_of_the_request(self):
        head = self.curl("--include").stdout.decode()
        date = next(line for line in head.splitlines() if line.startswith("Date: "))
        age = datetime.now(timezone.utc) - parsedate_to_datetime(date[6:])
        self.assertLess(abs(age), timedelta(seconds=5))

    def test_post_without_expect(self):
        sent = self.curl(
            "--include", "--header", "Expect:", "--data-binary", f"@{self.upload.name}"
        )
        self.assertEqual(undated(sent.stdout), answer(BODY, media=FORM))

    def test_post_with_expect(self):
        words = ["--expect100-timeout", str(PATIENCE), "--header", "Expect: 100-continue"]
        sent = self.curl("--include", *words, "--data-binary", f"@{self.upload.name}")
        continued = b"HTTP/1.1 100 Continue\r\n\r\n"
        self.assertEqual(undated(sent.stdout), continued + answer(BODY, media=FORM))

    def test_chunked_upload(self):
        words = [
            "--header",
            "Expect:",
            "--header",
            "Transfer-Encoding: chunked",
            "--header",
            "Content-Type: text/plain",
        ]
        sent = self.curl("--include", *words, "--data-binary", f"@{self.upload.name}")
        self.assertEqual(undated(sent.stdout), answer(BODY, media="text/plain"))

    def test_upload_from_a_pipe(self):
        words = [
            "--header",
            "Expect:",
            "--header",
            "Content-Type:",
            "--upload-file",
            "-",
            "--output",
            "-",
        ]
        url = f"http://127.0.0.1:{self.server.port}/"
        sent = subprocess.run(
            ["curl", "--silent", *words, url], input=BODY, capture_output=True, timeout=PATIENCE
        )
        self.assertEqual(sent.stdout, BODY)

    def test_connections_are_kept_by_version(self):
        self.assertEqual(self.connects("--http1.1"), [b"1", b"0"])
        self.assertEqual(self.connects("--http1.0"), [b"1", b"1"])
        self.assertEqual(self.connects("--http1.1", "--header", "Connection: close"), [b"1", b"1"])
        self.assertEqual(
            self.connects("--http1.0", "--header", "Connection: keep-alive"), [b"1", b"0"]
        )

    def test_many_at_once(self):
        url = f"http://127.0.0.1:{self.server.port}/[1-200]"
        words = [
            "--parallel",
            "--parallel-max",
            "50",
            "--data-binary",
            "hello",
            "--max-time",
            str(PATIENCE),
        ]
        sent = subprocess.run(["curl", "--silent", *words, url], capture_output=True, check=True)
        self.assertEqual(sent.stdout, b"hello" * 200)


@needs("curl")
class CurlRefused(unittest.TestCase):
    def test_a_body_above_the_limit(self):
        with Server("--max-request-body-size=100000") as server:
            url = f"http://127.0.0.1:{server.port}/"
            words = [
                "curl",
                "--silent",
                "--include",
                "--header",
                "Expect:",
                "--data-binary",
                "@-",
                url,
            ]
            sent = subprocess.run(words, input=BODY, capture_output=True, timeout=PATIENCE)
            expected = refusal("413 Request Entity Too Large", "exceeds max_body of 100000")
            self.assertEqual(undated(sent.stdout), expected)


class HttpClient(unittest.TestCase):
    def setUp(self):
        server = self.enterContext(Server())
        self.client = http.client.HTTPConnection("127.0.0.1", server.port, timeout=PATIENCE)
        self.addCleanup(self.client.close)

    def ask(self, method, **request):
        self.client.request(method, "/", **request)
        answered = self.client.getresponse()
        return answered.status, answered.read()

    def test_one_connection_for_many_requests(self):
        self.assertEqual(self.ask("GET"), (200, b""))
        link = self.client.sock
        for length in (0, 1, 8192, 8193, 65536, len(BODY)):
            self.assertEqual(self.ask("POST", body=BODY[:length]), (200, BODY[:length]))
        self.assertIs(self.client.sock, link)

    def test_head(self):
        for method in ("HEAD", "GET"):
            self.assertEqual(
                self.ask(method, body=b"hello"), (200, b"hello" if method == "GET" else b"")
            )

    def test_chunks(self):
        for size in (1, 100, 100000):
            chunks = [BODY[at : at + size] for at in range(0, min(len(BODY), 1000 * size), size)]
            answered = self.ask(
                "POST",
                body=iter(chunks),
                encode_chunked=True,
                headers={"Transfer-Encoding": "chunked"},
            )
            self.assertEqual(answered, (200, b"".join(chunks)))

    def test_any_method(self):
        for method in ("PUT", "PATCH", "DELETE", "OPTIONS", "X-OWN"):
            self.assertEqual(self.ask(method, body=b"hello"), (200, b"hello"))
