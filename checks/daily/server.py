"""A server of feeds by TLS for checks/fetch.sh: each path answers in one way, mostly a wrong one.

usage: server.py ADDRESS PORT CERTIFICATE KEY LOG [HOSTS]
"""
import http.server
import os
import socket
import ssl
import sys
import time

FEED = b'192.0.2.0/25,CH,CH-ZH,Zurich,\n'
address, port, certificate, key, log, *hosts = sys.argv[1:]


class Handler(http.server.BaseHTTPRequestHandler):
    protocol_version = 'HTTP/1.1'

    def log_message(self, *_):
        pass

    def do_GET(self):
        asked = [f'{name}: {value}' for name, value in self.headers.items()]
        with open(log, 'a', encoding='utf-8') as out:
            out.write(f'{address} {self.headers["Host"]} {self.path} {asked}\n')
        name, *words = self.path.split('?')[0].strip('/').split('/')
        getattr(self, f'answer_{name.replace("-", "_")}', self.answer_file)(*words)
        self.close_connection = True

    def head(self, status, **headers):
        self.send_response(status)
        for name, value in headers.items():
            self.send_header(name.replace('_', '-'), value)
        self.end_headers()

    def whole(self, body, **headers):
        self.head(200, Content_Length=len(body), **headers)
        self.wfile.write(body)

    def answer_file(self, *_):
        """A file of the folder `served`, with a tag of its time and size; 304 if asked so."""
        try:
            with open(f'served/{os.path.basename(self.path)}', 'rb') as file:
                body = file.read()
                state = os.fstat(file.fileno())
        except OSError:
            return self.whole(b'')
        tag = f'"{state.st_mtime_ns}-{state.st_size}"'
        if self.headers['If-None-Match'] == tag:
            return self.head(304, ETag=tag)
        self.whole(body, ETag=tag, Last_Modified='Sun, 29 Nov 2026 08:00:00 GMT')

    def answer_ok(self):
        self.whole(FEED)

    def answer_modified(self):
        date = 'Sat, 28 Nov 2026 08:00:00 GMT'
        if self.headers['If-Modified-Since'] == date:
            return self.head(304)
        self.whole(FEED, Last_Modified=date)

    def answer_redirect(self, left):
        left = int(left)
        place = f'/redirect/{left - 1}' if left > 1 else '/ok'
        self.head(302, Location=place, Content_Length=0)

    def answer_to(self, *words):
        self.head(301, Location='/'.join(words), Content_Length=0)

    def answer_rebind(self):
        """From now on the name is that of this host. The file is written over in place, by as many
        bytes: whoever reads it meanwhile finds every other name."""
        before, after = b'9.9.9.9   rebind.example', b'127.0.0.1 rebind.example'
        with open(hosts[0], 'r+b', buffering=0) as text:
            place = text.read().find(before)
            if place >= 0:
                os.pwrite(text.fileno(), after, place)
        self.head(302, Location='https://rebind.example/secret', Content_Length=0)

    def answer_endless(self):
        self.head(200, Transfer_Encoding='chunked')
        chunk = FEED * 1000
        while True:
            self.wfile.write(b'%x\r\n%s\r\n' % (len(chunk), chunk))

    def answer_announced(self):
        self.head(200, Content_Length=10 ** 10)
        self.wfile.write(FEED * 100_000)

    def answer_slow(self):
        self.head(200, Content_Length=1000)
        while True:
            self.wfile.write(b'#')
            self.wfile.flush()
            time.sleep(0.5)

    def answer_silent(self):
        time.sleep(60)

    def answer_heads(self):
        self.wfile.write(b'HTTP/1.1 200 OK\r\n')
        while True:
            self.wfile.write(b'X-More: ' + b'x' * 1000 + b'\r\n')

    def answer_cut(self):
        self.head(200, Content_Length=1000)
        self.wfile.write(FEED)

    def answer_html(self):
        self.whole(b'<!DOCTYPE html><html><body>This domain is for sale</body></html>')

    def answer_empty(self):
        self.whole(b'')

    def answer_status(self, status):
        self.head(int(status), Content_Length=len(FEED))
        self.wfile.write(FEED)

    def answer_unasked(self):
        self.head(304)

    def answer_other(self):
        self.wfile.write(b'220 mail.example ESMTP\r\n')


class Server(http.server.ThreadingHTTPServer):
    daemon_threads = True
    address_family = socket.AF_INET6 if ':' in address else socket.AF_INET

    def handle_error(self, *_):
        pass


context = ssl.SSLContext(ssl.PROTOCOL_TLS_SERVER)
context.load_cert_chain(certificate, key)
server = Server((address, int(port)), Handler)
server.socket = context.wrap_socket(server.socket, server_side=True, do_handshake_on_connect=False)
server.serve_forever()
