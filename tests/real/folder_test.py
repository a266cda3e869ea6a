"""The files of a folder, byte by byte and in a browser."""
import html
import os
import subprocess
import tempfile
import unittest

from support import PATIENCE, needs, not_found, request, response, serve

SITE = f"{os.path.dirname(os.path.abspath(__file__))}/site"


class Files(unittest.TestCase):
    def setUp(self):
        root = self.enterContext(tempfile.TemporaryDirectory())
        self.files = {
            "index.html": (b"<p>hello", "text/html; charset=utf-8"),
            "empty.txt": (b"", "text/plain; charset=utf-8"),
            "large.bin": (bytes(range(256)) * 2000, "application/octet-stream"),
            "inner/index.html": (b"inner", "text/html; charset=utf-8"),
            "inner/a.JSON": (b"{}", "application/json"),
            "a b": (b"a blank", "application/octet-stream"),
        }
        os.mkdir(f"{root}/inner")
        for name, (content, _) in self.files.items():
            with open(f"{root}/{name}", "wb") as file:
                file.write(content)
        os.mkfifo(f"{root}/fifo")
        os.symlink("/dev/zero", f"{root}/device")
        os.symlink("loop", f"{root}/loop")
        os.symlink("nowhere", f"{root}/broken")
        os.symlink("inner/index.html", f"{root}/link.html")
        self.files["link.html"] = self.files["inner/index.html"]
        self.server = serve(self, "dir", root)

    def ask(self, path, method="GET"):
        return self.server.exchange(request(method, "1.1", path=path))

    def test_files_and_their_types(self):
        paths = {f"/{name.replace(' ', '%20')}": name for name in self.files}
        paths |= {"/": "index.html", "/inner/": "inner/index.html", "/?a=b": "index.html"}
        for path, name in paths.items():
            with self.subTest(path):
                content, media = self.files[name]
                whole = response("200 OK", content, "1.1", None, media)
                self.assertEqual(self.ask(path), whole)
                self.assertEqual(self.ask(path, "HEAD"), whole[: len(whole) - len(content)])

    def test_what_is_not_found(self):
        for path in (
            "/no",
            "/inner",
            "/../etc/passwd",
            "/%2e%2e/x",
            "/inner//a.JSON",
            "/inner/./a.JSON",
            "/a%00",
            "/fifo",
            "/device",
            "/loop",
            "/broken",
            "/" + "a" * 300,
            "/index.html/",
        ):
            with self.subTest(path):
                self.assertEqual(self.ask(path), not_found())

    def test_another_method(self):
        answered = self.ask("/", "POST")
        self.assertTrue(
            answered.startswith(b"HTTP/1.1 405 Method Not Allowed\r\nAllow: GET, HEAD\r\n"),
            answered,
        )


@needs("chromium")
class Chromium(unittest.TestCase):
    def chromium(self, *words):
        with tempfile.TemporaryDirectory() as profile:
            own = ["--headless", "--no-sandbox", "--disable-gpu", f"--user-data-dir={profile}"]
            words = ["chromium", *own, "--virtual-time-budget=10000", *words]
            shown = subprocess.run(words, capture_output=True, timeout=4 * PATIENCE, check=True)
        return html.unescape(shown.stdout.decode())

    def test_a_page_with_its_style_script_and_picture(self):
        server = serve(self, "dir", SITE)
        url = f"http://127.0.0.1:{server.port}/"
        # The script writes what became of the style and the picture.
        self.assertIn('<p id="told">rgb(1, 2, 3) 40x30</p>', self.chromium("--dump-dom", url))
        picture = f"{tempfile.gettempdir()}/waitress-serve.png"
        self.chromium(f"--screenshot={picture}", "--window-size=400,300", url)
        with open(picture, "rb") as file:
            self.assertEqual(file.read(8), b"\x89PNG\r\n\x1a\n")
        print(f"(the page is in {picture})", end=" ")
