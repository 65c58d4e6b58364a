#!/usr/bin/env bash
# Runs all trials of stock Kafka clients against the program. Debian's packages kcat, librdkafka-dev,
# python3-confluent-kafka, python3-kafka and golang-github-shopify-sarama-dev; what isn't installed is
# skipped in words.
#
#     run.sh [PROGRAM]
set -u
here=$(cd -- "$(dirname -- "${BASH_SOURCE[0]}")" && pwd) || exit 1
program=${1:-$here/../../crates/kx_main/out/kx_main}
failed=0
for trial in kcat rdkafka confluent kafka_python sarama waits levels limits schedules transactions groups; do
  printf '== %s\n' "$trial"
  # Debian's Python, which its packages are for.
  /usr/bin/python3 "$here/$trial.py" "$program" || failed=1
done
exit "$failed"
