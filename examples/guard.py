#!/usr/bin/env python3
"""An authorizer of two tokens: examples/guard.py PORT. It ends with its standard input. GET /count tells how often it was asked."""
import http.server, json, sys, threading


def allow(principal, resource):
    statement = {"Effect": "Allow", "Action": "execute-api:Invoke", "Resource": resource}
    return {"principalId": principal, "policyDocument": {"Statement": [statement]}}


POLICIES = {"ann": allow("ann", "*/GET/*"), "root": allow("root", "*")}


class Guard(http.server.BaseHTTPRequestHandler):
    asked = 0

    def do_POST(self):
        Guard.asked += 1
        question = json.loads(self.rfile.read(int(self.headers["content-length"])))
        policy = POLICIES.get(question["authorizationToken"])
        self.tell(404 if policy is None else 200, json.dumps(policy))

    def do_GET(self):
        self.tell(200, f"asked {Guard.asked} times")

    def tell(self, status, text):
        body = text.encode()
        self.send_response(status)
        self.send_header("content-length", str(len(body)))
        self.end_headers()
        self.wfile.write(body)

    def log_message(self, *_):
        pass


server = http.server.ThreadingHTTPServer(("127.0.0.1", int(sys.argv[1])), Guard)
threading.Thread(target=server.serve_forever, daemon=True).start()
sys.stdin.read()
