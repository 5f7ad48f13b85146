#!/usr/bin/env python3
"""Sends requests that a proxy answers by itself, each about something secret, and prints how many it sent.

usage: odd.py

They go to registry.example.org: by TLS and without it to port 443, and without it to port 80. Each names a path that only one caller may know, with
the word WORD in it.
"""
import contextlib
import socket
import ssl

WORD, NAME = 'secretpath', 'registry.example.org'
HOST = f'Host: {NAME}\r\n'
PATHS = [f'/requests/{WORD}', f'/desk/approve/alice/{WORD}']


def whole(line, fields=HOST, body=''):
    """The bytes of a request."""
    return f'{line}\r\n{fields}\r\n{body}'.encode('latin-1')


def lines(path):
    """Requests whose first line is odd."""
    yield from (whole(f'{method} {path} HTTP/1.1') for method in ('GET', 'get', 'G\x01T', 'TRACE', 'CONNECT', 'PATCH', 'HEAD', 'OPTIONS', 'X' * 5000))
    yield from (whole(f'GET {path} {version}') for version in ('HTTP/2.0', 'HTTP/1.2', 'HTTP/3', 'HTTP/1.1 x', 'http/1.1', 'HTTP/1.0'))
    yield from (f'GET {path}\r\n\r\n'.encode(), f'GET {path} HTTP/1.1\n{HOST}\n'.encode(), whole(f'GET  {path}  HTTP/1.1'))
    yield from (whole(f'GET {path}{end} HTTP/1.1') for end in ('%00', '%zz', '%', '?a=b', '#x', '/..', '/../../..', '\\', '\x7f', '\xff', '%2f..%2f', 'x' * 9000))
    yield from (whole(f'GET {start}{path} HTTP/1.1') for start in (f'https://{NAME}', 'https://other.example', '//other.example', '/.', '/site/..', '*', NAME))


def heads(path):
    """Requests whose fields are odd."""
    line = f'GET {path} HTTP/1.1'
    odd = ['', HOST * 2, 'Host: \r\n', 'Host: other.example\r\n', 'Host: 127.0.0.1\r\n', f'Host: {NAME}{path}\r\n', HOST + 'no colon\r\n', HOST + 'a b: c\r\n',
           HOST + ' folded\r\n', HOST + ': empty\r\n', HOST + 'A: \x00\r\n', HOST + f'Referer: https://{NAME}{path}\r\n', HOST + f'A: {"x" * 40000}\r\n',
           HOST + ''.join(f'A{place}: x\r\n' for place in range(200)), HOST + f'Authorization: Bearer {WORD}-token-0000000\r\n' * 2,
           HOST + 'Expect: 100-continue\r\n', HOST + 'Expect: x\r\n', HOST + 'Upgrade: h2c\r\nConnection: Upgrade, HTTP2-Settings\r\nHTTP2-Settings: AAMAAABk\r\n']
    bodies = ['Transfer-Encoding: x\r\n', 'Transfer-Encoding: chunked\r\nContent-Length: 3\r\n', 'Content-Length: 3\r\nContent-Length: 4\r\n', 'Content-Length: 3, 4\r\n',
              'Content-Length: +3\r\n', 'Content-Length: 0x3\r\n', 'Content-Length: -1\r\n', 'Content-Length: 18446744073709551617\r\n', 'Content-Length: 200000\r\n']
    yield from (whole(line, fields) for fields in odd)
    yield from (whole(line.replace('GET', 'PUT'), HOST + fields, 'abc') for fields in bodies)
    yield whole(line.replace('GET', 'PUT'), HOST + 'Transfer-Encoding: chunked\r\n', 'ZZ\r\nabc\r\n0\r\n\r\n')
    yield whole(line) + whole(line.replace('HTTP/1.1', 'HTTP/9'))


def send(data, port, by_tls, name=NAME):
    """Sends the bytes on a connection of its own, and waits a second at most for what is answered."""
    with contextlib.suppress(OSError), socket.create_connection((name, port), timeout=1) as plain:
        tls = ssl.SSLContext(ssl.PROTOCOL_TLS_CLIENT)
        tls.check_hostname, tls.verify_mode = False, ssl.CERT_NONE
        with (tls.wrap_socket(plain, server_hostname=name) if by_tls else contextlib.nullcontext(plain)) as peer:
            peer.sendall(data)
            peer.recv(65536)


def main():
    sent = [data for path in PATHS for kind in (lines, heads) for data in kind(path)]
    for data in sent:
        for port, by_tls in ((443, True), (443, False), (80, False)):
            send(data, port, by_tls)
    print(len(sent))


if __name__ == '__main__':
    main()
