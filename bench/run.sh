#!/usr/bin/env bash
# Times each kind of work of the program `tool_bench`: a line for each, with what it did in one second, and for bytes also the
# ratio to the SHA-256 of the same run, since machines differ. The first run builds it.
set -eu
cd "$(dirname "$0")/../crates/tool_bench"
rt run -- hash 1 1 > /dev/null
TIMEFORMAT=%U
seconds_of() {
  { time ./out/tool_bench "$@" > /dev/null; } 2>&1
}
hash_rate=$(awk -v seconds="$(seconds_of hash 1000 65536)" 'BEGIN { print 65.536 / (seconds + 0.000001) }')
rate() {
  local unit=$1 amount=$2
  shift 2
  awk -v words="$*" -v unit="$unit" -v amount="$amount" -v seconds="$(seconds_of "$@")" -v hash="$hash_rate" 'BEGIN {
    rate = amount / (seconds + 0.000001)
    printf "%-22s %7.2f s %12.1f %s/s", words, seconds, rate, unit
    if (unit == "MB") printf " %8.2f of SHA-256", rate / hash
    printf "\n"
  }'
}
rate requests 20000 sign 20000
rate requests 20000 presign 20000
rate requests 20000 kept-sign 20000
rate requests 20000 request 20000
rate requests 20000 kept-request 20000
rate requests 20000 signer 20000
rate requests 20000 operation 20000
rate requests 20000 followed-operation 20000
rate operations 20000 operate 20000
rate requests 20000 admit 20000
rate MB 20.48 chain 20000 1024
rate MB 65.536 chain 1000 65536
rate MB 20.48 kept-chain 20000 1024
rate MB 65.536 kept-chain 1000 65536
rate MB 655.36 checksum 10000 65536
rate MB 65.536 hash 1000 65536
rate MB 655.36 write 10000 65536
rate MB 358.4 decode 2000
rate MB 358.4 receive 2000
rate MB 1310.72 chunk 20000 65536
rate MB 65.536 signed-chunk 1000 65536
rate MB 1048.576 read-chunks 1000 65536
rate MB 20 profiles 200
