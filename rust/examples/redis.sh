#!/usr/bin/env bash
# Runs the example redis.rs against a Redis server of its own, which ends with it. Needs redis-server and redis-cli.
#   rust/examples/redis.sh [PORT]
set -euo pipefail
cd "$(dirname "$0")/.."
for tool in cargo redis-server redis-cli; do
  command -v "$tool" > /dev/null || { echo "$tool is not found" >&2; exit 1; }
done
port=${1:-7379}
folder=$(mktemp -d)
cargo build --release --example redis
redis-server --bind 127.0.0.1 --port "$port" --save '' --dir "$folder" > "$folder/log" &
server=$!
trap 'kill "$server"; wait "$server" || true; rm -rf "$folder"' EXIT
for _ in $(seq 100); do
  redis-cli -p "$port" ping > /dev/null 2>&1 && break
  sleep 0.1
done
cargo run --release --quiet --example redis "127.0.0.1:$port"
