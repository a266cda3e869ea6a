"""Gives each request's body back, by Waitress: echo.py PORT."""
import sys

from waitress import serve


def echo(environ, start_response):
    body = environ["wsgi.input"].read()
    media = environ.get("CONTENT_TYPE", "application/octet-stream")
    start_response("200 OK", [("Content-Type", media), ("Content-Length", str(len(body)))])
    return [body]


serve(echo, listen=f"127.0.0.1:{sys.argv[1]}", connection_limit=1100)
