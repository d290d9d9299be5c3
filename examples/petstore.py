#!/usr/bin/env python3
"""A backend with three pets, on the loopback: examples/petstore.py PORT. It ends when its standard input does."""
import http.server, json, sys, threading
from urllib.parse import parse_qs, urlsplit

PETS = [{"id": 1, "type": "dog", "price": 249.99}, {"id": 2, "type": "cat", "price": 124.99}, {"id": 3, "type": "fish", "price": 0.99}]


class Pets(http.server.BaseHTTPRequestHandler):
    def reply(self, status, told, *headers):
        body = json.dumps(told).encode()
        self.send_response(status)
        for name, value in (("Content-Type", "application/json"), ("Content-Length", str(len(body))), *headers):
            self.send_header(name, value)
        self.end_headers()
        self.wfile.write(body)

    def do_GET(self):
        asked = urlsplit(self.path)
        number = asked.path.removeprefix("/petstore/pets").removeprefix("/")
        kinds = parse_qs(asked.query).get("type")
        if not number:
            self.reply(200, [pet for pet in PETS if not kinds or pet["type"] in kinds])
        elif number.isdigit() and 1 <= int(number) <= len(PETS):
            self.reply(200, PETS[int(number) - 1])
        else:
            self.reply(404, {"errors": [f"no pet {number}"]})

    def do_POST(self):
        pet = json.loads(self.rfile.read(int(self.headers["Content-Length"])))
        self.reply(200, {"pet": pet, "message": "success"}, ("Location", f"/pets/{len(PETS) + 1}"))

    def log_message(self, *_):
        pass


server = http.server.ThreadingHTTPServer(("127.0.0.1", int(sys.argv[1])), Pets)
threading.Thread(target=server.serve_forever, daemon=True).start()
sys.stdin.read()
