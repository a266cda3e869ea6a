"""The words of the command line: docs/OPTIONS.md against the program."""
import os
import re
import shlex
import socket
import subprocess
import unittest

from support import PATIENCE, PROGRAM, ROOT, Server, free_port, run


def option_rows():
    """The name, value, range, default and example of each option, by the document."""
    with open(f"{ROOT}/docs/OPTIONS.md") as page:
        lines = [line for line in page if line.startswith("| `--") and line.count("|") == 6]
    for line in lines:
        name, value, span, default, example = (cell.strip() for cell in line.split("|")[1:6])
        yield name.strip("`"), value, span, default, shlex.split(example.strip("`"))


class Words(unittest.TestCase):
    def assert_ends(self, words, status, out="", err=""):
        ended = run(*words)
        found = (ended.returncode, ended.stdout.decode(), ended.stderr.decode())
        self.assertEqual(found, (status, out, err), words)

    def assert_faulty(self, words, message):
        self.assert_ends(words, 1, err=f"waitress-serve: {message}\n")

    def test_help_lists_the_options_of_the_document(self):
        lines = ["usage: waitress-serve [options] echo | table FILE | dir ROOT"]
        for name, value, *_ in option_rows():
            lines.append(f"  {name}" if value == "flag" else f"  {name}=VALUE")
        self.assertEqual(len(lines), 29)
        self.assert_ends(["--help"], 0, "\n".join(lines) + "\n")

    def test_check_prints_the_defaults_of_the_document(self):
        text = ""
        for name, _, _, default, _ in option_rows():
            if name in ("--no-clear-untrusted-proxy-headers", "--rehearse", "--check", "--help"):
                continue
            value = default.split(",")[0].strip("`")
            text += f"{name[2:]} = {'' if value == 'empty' else value}\n"
        self.assert_ends(["--check"], 0, text)

    def test_examples_are_taken(self):
        for name, *_, example in option_rows():
            with self.subTest(name):
                ended = run("--check", *[word for word in example if word != "--check"])
                self.assertEqual((ended.returncode, ended.stderr), (0, b""))

    def test_numbers_keep_to_their_ranges(self):
        for name, value, span, *_ in option_rows():
            bounds = re.fullmatch(r"([0-9]+) to ([0-9]+)", span)
            if not bounds:
                continue
            low, high = map(int, bounds.groups())
            beside = ["--trusted-proxy=*"] if name == "--trusted-proxy-count" else []
            for number in (low, high):
                with self.subTest(name, number=number):
                    self.assertEqual(run("--check", *beside, f"{name}={number}").returncode, 0)
            for number in {max(low - 1, 0), high + 1} - {low}:
                with self.subTest(name, number=number):
                    message = f"{name} must be from {low} to {high}"
                    self.assert_faulty(["--check", *beside, f"{name}={number}"], message)

    def test_check_shows_values_as_they_are_read(self):
        given = {
            "host": ("[::1]", "[::1]"),
            "url-prefix": ("//app//", "/app"),
            "trusted-proxy": ("10.0.0.1", "10.0.0.1"),
            "trusted-proxy-headers": (
                "X-Forwarded-Proto  x-forwarded-for,x-forwarded-for",
                "x-forwarded-for,x-forwarded-proto",
            ),
            "ident": ("an example", "an example"),
        }
        ended = run("--check", *(f"--{name}={value}" for name, (value, _) in given.items()))
        lines = ended.stdout.decode().splitlines()
        for name, (_, shown) in given.items():
            self.assertIn(f"{name} = {shown}", lines)

    def test_check_shows_addresses(self):
        ended = run("--check", "--listen= *:80   [::]:8080 a.example:1 ")
        self.assertIn(
            "listen = 0.0.0.0:80 [::]:8080 a.example:1", ended.stdout.decode().splitlines()
        )

    def test_a_trusted_proxy_alone_is_believed_on_the_scheme(self):
        ended = run("--check", "--trusted-proxy=*")
        self.assertIn(
            "trusted-proxy-headers = x-forwarded-proto", ended.stdout.decode().splitlines()
        )

    def test_words_that_cannot_be_read(self):
        for words in (
            ["--backlogs=1", "echo"],
            ["--por=1", "echo"],
            ["--port=1", "--port=1", "echo"],
            ["--check=1"],
            ["--port"],
            ["--port", "-1", "echo"],
            ["table", "a", "b"],
        ):
            self.assert_faulty(words, "the words could not be read")

    def test_bad_values(self):
        both = "--clear-untrusted-proxy-headers"
        for words, message in (
            (["--host=a/b", "echo"], "--host has a bad value"),
            (["--ident= a", "echo"], "--ident has a bad value"),
            (["--url-scheme=1a", "echo"], "--url-scheme has a bad value"),
            (["--server-name=a b", "echo"], "--server-name has a bad value"),
            (["--port=", "echo"], "--port has a bad value"),
            (["--port=80a", "echo"], "--port needs a whole number"),
            (["--port=18446744073709551616", "echo"], "--port needs a whole number"),
            (["--port=18446744073709551615", "echo"], "--port must be from 1 to 65535"),
            (["--threads=65", "--port=0", "echo"], "--port must be from 1 to 65535"),
            (["--listen=localhost", "echo"], "--listen entry 1 is not host:port"),
            (["--listen=a:1 b:0", "echo"], "--listen entry 2 is not host:port"),
            (["--listen=" + "a:1 " * 17, "echo"], "--listen entry 17 is not host:port"),
            (["--listen= ", "echo"], "--listen entry 1 is not host:port"),
            (["--listen=a:1", "--port=2", "echo"], "--listen is given both ways"),
            ([both, f"--no-{both[2:]}", "echo"], f"{both} is given both ways"),
            (["--trusted-proxy-count=2", "echo"], "--trusted-proxy-count needs --trusted-proxy"),
            (
                ["--trusted-proxy-headers=x-forwarded-for", "echo"],
                "--trusted-proxy-headers needs --trusted-proxy",
            ),
            (
                ["--trusted-proxy=*", "--trusted-proxy-headers=x-forwarded", "echo"],
                "--trusted-proxy-headers has a bad value",
            ),
        ):
            self.assert_faulty(words, message)

    def test_a_word_that_is_no_text(self):
        self.assert_ends([b"\xff"], 7)

    def test_applications_and_operands(self):
        self.assert_faulty(["--port=8081"], "no application is named")
        self.assert_faulty(["ecko"], "unknown application")
        for words in (["echo", "x"], ["table"], ["dir"], ["dir", ""]):
            self.assert_faulty(words, "wrong number of operands")

    def test_an_address_that_is_taken(self):
        with socket.create_server(("127.0.0.1", 0)) as taken:
            port = taken.getsockname()[1]
            words = ["--host=127.0.0.1", f"--port={port}", "echo"]
            self.assert_ends(words, 3, err="waitress-serve: bind failed\n")

    def test_an_address_of_another_machine(self):
        # RFC 5737 keeps these addresses for documents.
        words = ["--host=192.0.2.1", f"--port={free_port()}", "echo"]
        self.assert_ends(words, 3, err="waitress-serve: bind failed\n")

    def assert_unwritten(self, out, *words):
        ended = subprocess.run(
            [PROGRAM, *words], stdout=out, stderr=subprocess.PIPE, timeout=PATIENCE
        )
        self.assertEqual((ended.returncode, ended.stderr), (6, b""))

    def test_output_that_cannot_be_written(self):
        with open("/dev/full", "wb") as full:
            self.assert_unwritten(full, "--help")
            self.assert_unwritten(full, "--host=127.0.0.1", f"--port={free_port()}", "echo")

    def test_output_that_nobody_reads_is_no_signal(self):
        reader, writer = os.pipe()
        os.close(reader)
        with open(writer, "wb") as unread:
            self.assert_unwritten(unread, "--help")

    def test_a_line_for_each_address(self):
        ports = free_port(), free_port()
        listen = " ".join(f"127.0.0.1:{port}" for port in ports)
        with Server(listen=listen) as server:
            for server.port in ports:
                self.assertTrue(server.answers())
