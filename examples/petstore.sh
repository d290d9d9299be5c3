#!/usr/bin/env bash
# Starts a backend and a server, puts the pets API over HTTP, calls it, and shuts both down: examples/petstore.sh [PROGRAM] [PORT] [BACKEND_PORT].
cd "$(dirname "$0")/.." || exit 1
program=${1:-crates/gateway/out/gateway}
port=${2:-8080}
backend=${3:-8081}
room=$(mktemp -d) || exit 1
trap 'rm -rf "$room"' EXIT
mkfifo "$room/hold"
python3 examples/petstore.py "$backend" <"$room/hold" &
exec 3>"$room/hold"
"$program" serve "$room/pets.store" "$port" 4 &
server=$!
at=http://127.0.0.1:$port
again="--retry 20 --retry-delay 1 --retry-connrefused"
curl -sS $again -o /dev/null "http://127.0.0.1:$backend/petstore/pets"
curl -sS $again -X PUT --data-binary @examples/petstore.json "$at/_admin/apis/pets" && echo
curl -sS -X POST "$at/_admin/apis/pets/deployments" && echo
curl -sS -X PUT -d "1 port=$backend" "$at/_admin/apis/pets/stages/dev" && echo
curl -sS "$at/pets/dev/" && echo
curl -sS "$at/pets/dev/pets?type=dog&type=cat&page=1" && echo
curl -sS "$at/pets/dev/pets/3" && echo
curl -sS "$at/pets/dev/pets/9" && echo
curl -sS -o /dev/null -w '%{http_code} %header{location}\n' -H 'content-type: application/json' -d '{"type":"dog","price":1}' "$at/pets/dev/pets"
curl -sS -H 'content-type: application/json' -d '{"type":"cow"}' "$at/pets/dev/pets" && echo
# Printed whole, since the server prints its own line as it ends.
reply=$(curl -sS -X POST "$at/_admin/shutdown") && echo "$reply"
wait "$server"
