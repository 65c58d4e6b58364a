#!/usr/bin/env bash
# Loads `kx_main serve` over sockets, and `kx_main kafka` by librdkafka and kcat; and librdkafka with
# its mock cluster for comparison.
#
#     sockets.sh [PROGRAM]
#
# PROGRAM is crates/kx_main/out/kx_main, which ./kx builds, where none is named. Wants gcc, and for
# stock clients and the comparison Debian's librdkafka-dev and kcat. Each line is a load of a server of its own with empty logs:
# in memory, in files of a memory file system (/dev/shm), and in files of the disk on which this
# folder lies. medians.py makes one table of several runs. Under two minutes.
set -euo pipefail
cd "$(dirname "$0")"
program=${1-../crates/kx_main/out/kx_main}
if [ ! -x "$program" ]; then echo "sockets.sh: there is no $program; ./kx builds it" >&2; exit 1; fi

work=$(mktemp -d)
folders=("$work")
server=
end() {
  if [ -n "$server" ]; then kill "$server"; fi
  rm -rf "${folders[@]}"
}
trap end EXIT

gcc -O2 -Wall -Wextra -o "$work/sockets" sockets.c common.c batch.c crc.c -lpthread

# load WHERE FOLDER CONNECTIONS COUNT RECORDS [idempotent]: one load of one server, which ends with
# its last connection.
load() {
  local where=$1 folder=$2 words=() port
  shift 2
  if [ -n "$folder" ]; then rm -rf "$folder/logs"; words=(--dir "$folder/logs"); fi
  mkfifo "$work/said"
  "$program" serve --partitions 4 --connections "$1" "${words[@]}" > "$work/said" &
  server=$!
  exec 3< "$work/said"
  rm "$work/said"
  read -r _ port <&3
  printf '%-11s%2d connections, %-12s of %3d records: ' "$where" "$1" "${4-transactions}" "$3"
  "$work/sockets" "$port" "$@"
  wait "$server"
  server=
  exec 3<&-
}

# loads WHERE FOLDER ONE MANY: the loads of a place, so many commits of one connection and of sixteen.
loads() {
  local records
  for records in 1 100; do
    load "$1" "$2" 1 "$3" "$records"
    load "$1" "$2" 16 "$4" "$records"
    load "$1" "$2" 1 "$3" "$records" idempotent
    load "$1" "$2" 16 "$4" "$records" idempotent
  done
}

# mock WHAT PRODUCERS WORDS..: the same work by librdkafka.
mock() {
  local what=$1
  shift
  printf '%-11s%2d producers, %-28s: ' librdkafka "$1" "$what"
  "$work/rdkafka" "$@"
}

# stock WHERE FOLDER: idempotent records by librdkafka, and plain ones by kcat, there and back.
stock() {
  local where=$1 folder=$2 words=() port producers
  if [ -n "$folder" ]; then rm -rf "$folder/logs"; words=(--dir "$folder/logs"); fi
  mkfifo "$work/said"
  "$program" kafka --port 0 --topics load:4,plain:1 "${words[@]}" > "$work/said" &
  server=$!
  exec 3< "$work/said"
  rm "$work/said"
  read -r _ port <&3
  for producers in 1 16; do
    printf '%-11s%2d producers, %-28s: ' "$where" "$producers" "librdkafka, idempotent"
    BROKERS=127.0.0.1:$port "$work/rdkafka" "$producers" 400000 idempotent
  done
  if command -v kcat > /dev/null; then
    seq -f '%0100.0f' 500000 > "$work/records"
    printf '%-11skcat, 500,000 records of 100 bytes: ' "$where"
    took kcat -q -b "127.0.0.1:$port" -P -t plain -p 0 -l "$work/records"
    printf ' s in, '
    took kcat -q -b "127.0.0.1:$port" -C -t plain -p 0 -o beginning -e
    printf ' s out\n'
  fi
  kill "$server"
  server=
  exec 3<&-
}

# How many seconds a command takes.
took() {
  local begun ended
  begun=$(date +%s%N)
  "$@" > /dev/null
  ended=$(date +%s%N)
  printf '%d.%02d' $(((ended - begun) / 1000000000)) $(((ended - begun) / 10000000 % 100))
}

has_librdkafka() { [ -f /usr/include/librdkafka/rdkafka_mock.h ]; }

stocks() {
  if ! has_librdkafka; then
    echo "stock clients: not loaded, since librdkafka-dev isn't installed"
    return
  fi
  gcc -O2 -Wall -Wextra -o "$work/rdkafka" rdkafka.c common.c -lrdkafka -lpthread
  stock memory ""
  stock disk "${folders[-1]}"
}

mocks() {
  local producers
  if ! has_librdkafka; then
    echo "librdkafka: not compared, since librdkafka-dev isn't installed"
    return
  fi
  for producers in 1 16; do
    mock "transactions of   1 records" $producers 2000 1
    mock "transactions of 100 records" $producers 2000 100
    mock "idempotent" $producers 400000 idempotent
    mock "idempotent, linger.ms 0" $producers 400000 idempotent 0
  done
}

loads memory "" 10000 20000
if [ -d /dev/shm ]; then
  folders+=("$(mktemp -d -p /dev/shm)")
  loads tmpfs "${folders[-1]}" 10000 20000
fi
folders+=("$(mktemp -d -p .)")
loads disk "${folders[-1]}" 200 800
stocks
mocks
