#!/usr/bin/env bash
# Counts the instructions that the program `firuvaik` takes as its input grows, by `valgrind --tool=callgrind`: they repeat on a busy
# machine, where times don't. A line for each measure goes to growth.txt: the work, the number and the instructions. Then plot.py draws
# growth.svg.
#   bench/growth.sh [PROGRAM]    the program, where it isn't crates/firuvaik/out/firuvaik
set -eu
here=$(cd "$(dirname "$0")" && pwd)
program=$(realpath "${1:-$here/../crates/firuvaik/out/firuvaik}")
folder=$(mktemp -d)
trap 'rm -rf "$folder"' EXIT
cd "$folder"
grep '^#' "$here/growth.txt" > figures || true

# What stands before the events of each job, and the same settings as files.
{
  printf 'method POST\ntarget https://transcribe.us-east-1.amazonaws.com/stream\n'
  printf 'config [default]\nconfig region = us-east-1\ncredentials [default]\n'
  printf 'credentials aws_access_key_id = AKIDEXAMPLE\ncredentials aws_secret_access_key = wJalrXUtnFEMI/K7MDENG+bPxRfiCYEXAMPLEKEY\n'
} > front
sed -n 's/^config //p' front > config
sed -n 's/^credentials //p' front > credentials

# events COUNT SIZE: a job of so many events with so many bytes each.
events() {
  cat front
  python3 -c "import sys; sys.stdout.write(('event\npayload ' + '07' * $2 + '\n') * $1)"
}

# headers COUNT: a job with so many headers, in an order that isn't the sorted one.
headers() {
  cat front
  python3 -c "print('\n'.join(f'header x-{n * 7919 % $1:05}: value' for n in range($1)))"
}

# counted WORK NUMBER WORD..: a line with the instructions of a run of the words.
counted() {
  local work=$1 number=$2
  shift 2
  "$@" > out 2> err || { cat err >&2; exit 1; }
  awk -v work="$work" -v number="$number" '/Collected :/ { print work, number, $NF }' err | tee -a figures
}
measured=(env -i valgrind --tool=callgrind --callgrind-out-file=/dev/null "$program")
stream=("${measured[@]}" stream --name transcribe --at 1440938160 --raw)

for number in 100 300 1000 3000 10000 30000 100000; do
  events "$number" 100 > job
  counted events "$number" "${stream[@]}" < job
done
for number in 100 1000 10000 100000 1000000 10000000; do
  events 1 "$number" > job
  counted bytes "$number" "${stream[@]}" < job
done
for number in 10 30 100 300 1000 3000 10000 30000; do
  headers "$number" > job
  counted headers "$number" "${stream[@]}" < job
done
# The frames of one event whose signed message has 80,000 bytes, and the signature over which it was signed.
events 1 $((80000 - 16 - 67 - 16)) > job
signed=$(env -i "$program" stream --name transcribe --at 1440938160 < job | sed -n 's/.*Signature=//p')
env -i "$program" stream --name transcribe --at 1440938160 --raw < job > frames
watch=("${measured[@]}" watch --name transcribe --seed "$signed" --config config --credentials credentials)
for number in 10 30 100 300 1000 3000 10000 30000 80000; do
  counted pieces "$number" python3 "$here/pieces.py" "$number" frames "${watch[@]}"
done
cp figures "$here/growth.txt"
python3 "$here/plot.py"
