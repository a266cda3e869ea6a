"""nginx in front, by docs/nginx.conf as it stands, and the headers of proxies."""
import contextlib
import http.client
import socket
import subprocess
import tempfile
import textwrap
import threading
import time
import unittest

from support import PATIENCE, ROOT, Server, answer, get, needs, post, refusal, run

SITE = f"{ROOT}/docs/nginx.conf"
# Where the site stands, and where it looks for the server.
FRONT, BEHIND = 8000, 8080

# What nginx wants round a site.
AROUND = """
daemon off;
master_process off;
pid nginx.pid;
error_log stderr;
events { worker_connections 256; }
http {
    access_log off;
    client_body_temp_path client;
    proxy_temp_path proxy;
    fastcgi_temp_path fastcgi;
    uwsgi_temp_path uwsgi;
    scgi_temp_path scgi;
    include %s;
}
"""


def site_options():
    """The options that the site says the server behind it has."""
    with open(SITE) as site:
        return [
            word
            for word in site.read().split("upstream")[0].split()
            if word.startswith("--trusted")
        ]


@contextlib.contextmanager
def nginx():
    with tempfile.TemporaryDirectory(prefix="waitress-nginx-") as folder:
        with open(f"{folder}/nginx.conf", "w") as around:
            around.write(AROUND % SITE)
        words = ["nginx", "-p", folder, "-c", f"{folder}/nginx.conf", "-e", "stderr"]
        with open(f"{folder}/log", "w") as log:
            process = subprocess.Popen(words, stdin=subprocess.DEVNULL, stdout=log, stderr=log)
        try:
            wait_for(FRONT)
            yield
        finally:
            process.kill()
            process.wait()


def wait_for(port):
    end = time.monotonic() + PATIENCE
    while time.monotonic() < end:
        try:
            return socket.create_connection(("127.0.0.1", port), 1).close()
        except ConnectionRefusedError:
            time.sleep(0.05)
    raise AssertionError(f"nobody listens at port {port}")


def is_free(port):
    try:
        socket.create_server(("127.0.0.1", port)).close()
        return True
    except OSError:
        return False


class StandIn:
    """Listens in the place of the server, and keeps the head of the request of each connection."""

    def __enter__(self):
        self.heads = []
        self.listener = socket.create_server(("127.0.0.1", BEHIND))
        threading.Thread(target=self.serve, daemon=True).start()
        return self

    def __exit__(self, *_):
        self.listener.close()

    def serve(self):
        with contextlib.suppress(OSError):
            while True:
                link, _ = self.listener.accept()
                with link:
                    head = b""
                    while b"\r\n\r\n" not in head:
                        head += link.recv(65536)
                    self.heads.append(head.decode())
                    link.sendall(answer(connection="close"))


def ask(method="GET", body=None, fields={}):
    client = http.client.HTTPConnection("127.0.0.1", FRONT, timeout=PATIENCE)
    client.request(method, "/", body=body, headers=fields, encode_chunked=True)
    answered = client.getresponse()
    text = answered.read()
    client.close()
    return answered.status, text


class Documents(unittest.TestCase):
    def test_the_readme_shows_the_files_as_they_are(self):
        with open(f"{ROOT}/README.md") as page:
            shown = page.read()
        for name in ("nginx.conf", "waitress-serve.service"):
            with open(f"{ROOT}/docs/{name}") as file:
                self.assertIn(textwrap.indent(file.read(), "    "), shown)

    def test_the_words_of_the_service_are_taken(self):
        with open(f"{ROOT}/docs/waitress-serve.service") as unit:
            text = unit.read().replace("\\\n", "")
        start = next(line for line in text.splitlines() if line.startswith("ExecStart="))
        options = [word for word in start.split() if word.startswith("--")]
        self.assertTrue(set(site_options()) <= set(options))
        self.assertEqual(run("--check", *options).returncode, 0)


@needs("nginx")
class Nginx(unittest.TestCase):
    def setUp(self):
        for port in (FRONT, BEHIND):
            if not is_free(port):
                self.skipTest(f"port {port} is taken")

    def test_what_nginx_tells_of_a_client(self):
        with StandIn() as stand_in, nginx():
            claims = {
                "X-Forwarded-For": "192.0.2.1",
                "X-Forwarded-Host": "claimed.example",
                "X-Forwarded-Proto": "https",
            }
            self.assertEqual(ask(fields={"Host": "front.example:8000", **claims})[0], 200)
        lines = stand_in.heads[0].split("\r\n")
        self.assertEqual(lines[0], "GET / HTTP/1.1")
        fields = {line.lower() for line in lines[1:]}
        for field in (
            "host: front.example:8000",
            "x-forwarded-for: 192.0.2.1, 127.0.0.1",
            "x-forwarded-host: front.example:8000",
            "x-forwarded-proto: http",
        ):
            self.assertIn(field, fields)
        self.assertFalse([field for field in fields if field.startswith("connection:")])

    def test_the_server_behind_nginx(self):
        with Server(*site_options(), listen=f"127.0.0.1:{BEHIND}"), nginx():
            body = bytes(range(256)) * 3000
            self.assertEqual(ask(), (200, b""))
            self.assertEqual(ask("POST", body), (200, body))
            self.assertEqual(ask("HEAD"), (200, b""))
            chunks = iter([body[:1000], body[1000:]])
            self.assertEqual(ask("PUT", chunks, {"Transfer-Encoding": "chunked"}), (200, body))
            # nginx takes the place of what a client claims; the server would refuse it.
            self.assertEqual(ask(fields={"X-Forwarded-Proto": "ftp"}), (200, b""))

    def test_nginx_keeps_its_connections(self):
        options = [*site_options(), "--serve-limit=1"]
        with Server(*options, listen=f"127.0.0.1:{BEHIND}"), nginx():
            for _ in range(20):
                self.assertEqual(ask("POST", b"hello"), (200, b"hello"))

    def test_a_server_that_is_stopped_is_a_bad_gateway(self):
        with Server(*site_options(), listen=f"127.0.0.1:{BEHIND}") as server, nginx():
            self.assertEqual(ask(), (200, b""))
            server.process.terminate()
            server.process.wait()
            self.assertEqual(ask()[0], 502)


class ProxyHeaders(unittest.TestCase):
    KINDS = "--trusted-proxy-headers=x-forwarded-for,x-forwarded-host,x-forwarded-proto"

    def malformed(self, name):
        return refusal("400 Bad Request", f'Header "{name}" malformed.')

    def test_those_of_a_trusted_peer_are_read(self):
        with Server("--trusted-proxy=127.0.0.1", self.KINDS) as server:
            for name, value in (
                ("X-Forwarded-For", "192.0.2.1, [2001:db8::1]:80"),
                ("X-Forwarded-Host", "a.example:80"),
                ("X-Forwarded-Proto", "HTTPS"),
                # Not among the kinds.
                ("X-Forwarded-Port", "none"),
            ):
                self.assertEqual(server.exchange(get("1.1", f"{name}: {value}")), answer())
            for name, value in (
                ("X-Forwarded-For", "192.0.2.1,"),
                ("X-Forwarded-For", "a b"),
                ("X-Forwarded-Host", "a.example:0"),
                ("X-Forwarded-Proto", "ftp"),
            ):
                asked = post(b"hello", f"{name}: {value}") + get("1.1")
                self.assertEqual(server.exchange(asked), self.malformed(name))

    def test_those_of_others_are_not(self):
        for options in ([], ["--trusted-proxy=192.0.2.1", self.KINDS]):
            with Server(*options) as server:
                self.assertEqual(server.exchange(get("1.1", "X-Forwarded-Proto: ftp")), answer())

    def test_a_star_trusts_any_peer(self):
        with Server("--trusted-proxy=*") as server:
            asked = get("1.1", "X-Forwarded-Proto: ftp")
            self.assertEqual(server.exchange(asked), self.malformed("X-Forwarded-Proto"))
