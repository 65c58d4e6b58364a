#!/usr/bin/env bash
# What traces cost: loads `kx_main serve --dir` over sockets without and with --trace, in turns, and
# audits what it left; then audits a million steps, with the time and the memory that takes.
#
#     traces.sh [PROGRAM]
#
# PROGRAM is crates/kx_main/out/kx_main, which ./kx builds, where none is named. Wants gcc. Logs and
# traces are on the disk on which this folder lies; those of the million steps are in a memory file
# system (/dev/shm). Four minutes.
set -euo pipefail
cd "$(dirname "$0")"
program=${1-../crates/kx_main/out/kx_main}
if [ ! -x "$program" ]; then echo "traces.sh: there is no $program; ./kx builds it" >&2; exit 1; fi

work=$(mktemp -d -p .)
memory=$(mktemp -d -p /dev/shm)
server=
end() {
  if [ -n "$server" ]; then kill "$server"; fi
  rm -rf "$work" "$memory"
}
trap end EXIT

gcc -O2 -Wall -Wextra -o "$work/sockets" sockets.c common.c batch.c crc.c -lpthread

# load FOLDER TRACED CONNECTIONS COUNT RECORDS [idempotent]: one load of one server, with traces if
# TRACED is yes.
load() {
  local folder=$1 traced=$2 words=() port
  shift 2
  rm -rf "$folder/logs" "$folder/traces"
  if [ "$traced" = yes ]; then words=(--trace "$folder/traces"); fi
  mkfifo "$folder/said"
  "$program" serve --partitions 4 --connections "$1" --dir "$folder/logs" "${words[@]}" > "$folder/said" &
  server=$!
  exec 3< "$folder/said"
  rm "$folder/said"
  read -r _ port <&3
  printf 'traced %-3s %2d connections, %-12s of %3d records: ' "$traced" "$1" "${4-transactions}" "$3"
  "$work/sockets" "$port" "$@"
  wait "$server"
  server=
  exec 3<&-
}

for _ in 1 2 3; do
  for load in '16 10000 1' '16 5000 100' '16 20000 1 idempotent' '16 20000 100 idempotent'; do
    for traced in no yes; do
      # shellcheck disable=SC2086
      load "$work" "$traced" $load
    done
    "$program" audit "$work/traces" --dir "$work/logs" | tail -n 1
  done
done

# A million steps, each of which appends a batch of one record of 100 bytes.
load "$memory" yes 16 1000000 1 idempotent
du -b -s "$memory/traces" "$memory/logs"
/usr/bin/time -f '%e s, %U s of a processor, %M KiB of memory' "$program" audit "$memory/traces" --dir "$memory/logs"
