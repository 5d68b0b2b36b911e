#!/usr/bin/env bash
# Proves and builds the program `capture`, then runs it on every example capture.
set -eu
cd "$(dirname "$0")/crates/capture"
log=$(mktemp)
rt run > "$log" 2>&1 || { tail -n 20 "$log"; exit 1; }
rm -f "$log"
cd data
exec ../out/capture *.capture
