#!/bin/sh
# Runs all campaigns one after another, and prints what they print: a line for each run that is wrong, and each campaign's line of
# counts. The status is 1 where one of them found something, and the last line names it. `campaigns/build.sh` builds the programs.
#   campaigns/run.sh [MODEL]    with the reference model in the folder MODEL, which campaigns/model.py says more of
model=
[ $# -eq 0 ] || model=$(cd "$1" && pwd) || exit 1
cd "$(dirname "$0")" || exit 1
found=

# try SCRIPT WORD..: a campaign, whose name is kept where it fails.
try() {
  "$@" || found="$found $1"
}

try ./memory.py
try ./outside.py
try ./sizes.sh
try ./mutations.py ${model:+--model "$model"}
[ -z "$model" ] || try ./model.py "$model" --seconds 1800
try ./peers.py
if [ -n "$found" ]; then
  echo "campaigns/run.sh: found something:$found"
  exit 1
fi
