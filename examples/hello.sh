#!/usr/bin/env bash
# Starts a server over a store of its own, makes an API over HTTP, calls it, and shuts the server down: examples/hello.sh [PROGRAM] [PORT].
cd "$(dirname "$0")/.." || exit 1
program=${1:-crates/gateway/out/gateway}
port=${2:-8080}
room=$(mktemp -d) || exit 1
trap 'rm -rf "$room"' EXIT
"$program" serve "$room/hello.store" "$port" 4 &
server=$!
at=http://127.0.0.1:$port
curl -sS --retry 20 --retry-delay 1 --retry-connrefused -X PUT --data-binary 'Hi $input.body!' "$at/_admin/apis/hello/text" && echo
curl -sS -X POST "$at/_admin/apis/hello/deployments" && echo
curl -sS -X PUT -d '1 env=test' "$at/_admin/apis/hello/stages/v1" && echo
curl -sS -d Ann "$at/hello/v1" && echo
# Printed whole, since the server prints its own line as it ends.
reply=$(curl -sS -X POST "$at/_admin/shutdown") && echo "$reply"
wait "$server"
