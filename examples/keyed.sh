#!/usr/bin/env bash
# Starts a server, puts an API whose calls need a key, makes a key with a plan of two calls a month, calls it, and shuts the server down:
# examples/keyed.sh [PROGRAM] [PORT].
cd "$(dirname "$0")/.." || exit 1
program=${1:-crates/gateway/out/gateway}
port=${2:-8080}
room=$(mktemp -d) || exit 1
trap 'rm -rf "$room"' EXIT
"$program" serve "$room/keyed.store" "$port" 4 >"$room/line" &
server=$!
at=http://127.0.0.1:$port
curl -sS --retry 20 --retry-delay 1 --retry-connrefused -o /dev/null -X PUT --data-binary @examples/keyed.json "$at/_admin/apis/keyed"
# A command of the administration, and its reply.
order() {
  curl -sS "$@" && echo
}
# The status with the body, or with the cause where the answer is the gateway's own.
call() {
  told=$(curl -sS -o "$room/body" -w '%{http_code} %header{x-gateway-cause}' "$@" "$at/keyed/v1")
  case $told in 200*) echo "200 $(cat "$room/body")" ;; *) echo "$told" ;; esac
}
order -X POST "$at/_admin/apis/keyed/deployments"
order -X PUT -d 1 "$at/_admin/apis/keyed/stages/v1"
order -X PUT -d 'secret-of-ann on' "$at/_admin/keys/ann"
order -X PUT -d '10:20 2:0:MONTH keyed/v1' "$at/_admin/plans/basic"
order -X PUT "$at/_admin/plans/basic/keys/ann"
call
call -H 'x-api-key: secret-of-ann'
call -H 'x-api-key: secret-of-ann'
call -H 'x-api-key: secret-of-ann'
order -d 1 "$at/_admin/plans/basic/keys/ann/grant"
call -H 'x-api-key: secret-of-ann'
curl -sS -o /dev/null -X POST "$at/_admin/shutdown"
wait "$server"
