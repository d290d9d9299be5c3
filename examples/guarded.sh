#!/usr/bin/env bash
# Starts an authorizer and a server, puts an API that asks it, calls it, and shuts both down: examples/guarded.sh [PROGRAM] [PORT] [GUARD_PORT].
cd "$(dirname "$0")/.." || exit 1
program=${1:-crates/gateway/out/gateway}
port=${2:-8080}
guard=${3:-8081}
room=$(mktemp -d) || exit 1
trap 'rm -rf "$room"' EXIT
mkfifo "$room/hold"
python3 examples/guard.py "$guard" <"$room/hold" &
exec 3>"$room/hold"
"$program" serve "$room/guarded.store" "$port" 4 >"$room/line" &
server=$!
at=http://127.0.0.1:$port
again="--retry 20 --retry-delay 1 --retry-connrefused"
curl -sS $again -o /dev/null "http://127.0.0.1:$guard/count"
sed "s/:8081/:$guard/" examples/guarded.json | curl -sS $again -o /dev/null -X PUT --data-binary @- "$at/_admin/apis/guarded"
curl -sS -o /dev/null -X POST "$at/_admin/apis/guarded/deployments"
curl -sS -o /dev/null -X PUT -d 1 "$at/_admin/apis/guarded/stages/v1"
# The status with the body, or with the cause where the answer is the gateway's own.
call() {
  told=$(curl -sS -o "$room/body" -w '%{http_code} %header{x-gateway-cause}' "$@" "$at/guarded/v1/hello")
  case $told in 200*) echo "200 $(cat "$room/body")" ;; *) echo "$told" ;; esac
}
call
call -H 'authorization: ann'
call -H 'authorization: ann'
call -X POST -H 'authorization: ann'
call -X POST -H 'authorization: root'
call -H 'authorization: eve'
curl -sS "http://127.0.0.1:$guard/count" && echo
curl -sS -o /dev/null -X POST "$at/_admin/shutdown"
wait "$server"
