#!/bin/sh
# Builds and runs what calls the C library: the examples and a hostile caller in C, the Python module and the Rust crate. It says which
# of the tools are missing, and fails by name. c/build.sh has to have made the library.
cd "$(dirname "$0")/.." || exit 1
out=$(pwd)/c/out
failed=0
folder=$(mktemp -d) || exit 1
trap 'rm -rf "$folder"' EXIT

has() {
  command -v "$1" > /dev/null || { echo "checks/c.sh: $1 is missing: $2 aren't tried"; return 1; }
}

# tries NAME COMMAND..: runs it, and tells its name and what it said where it fails.
tries() {
  name=$1
  shift
  if ! "$@" > "$folder/said" 2>&1; then
    echo "checks/c.sh: $name failed"
    tail -20 "$folder/said"
    failed=1
  fi
}

# finds NAME PATTERN COMMAND..: its output has a line of this pattern.
finds() {
  name=$1 pattern=$2
  shift 2
  if ! "$@" 2> "$folder/said" | grep -qae "$pattern"; then
    echo "checks/c.sh: $name has no $pattern"
    tail -5 "$folder/said"
    failed=1
  fi
}

has python3 "the header and the Python module" && tries "the header" checks/c_header.py
if [ ! -e "$out/libfiruvaik.a" ]; then
  echo "checks/c.sh: there is no library: run c/build.sh"
  exit 1
fi
if has nm "the names"; then
  others=$(nm -D --defined-only "$out/libfiruvaik.so" | awk '{ print $3 }' | grep -v '^firuvaik_')
  [ -z "$others" ] || { echo "checks/c.sh: the library has other names: $others"; failed=1; }
fi
if has cc "the callers in C"; then
  strict="-std=c89 -pedantic -Wall -Wextra -Werror -g -Ic"
  for source in c/examples/sign.c c/examples/stream.c c/examples/watch.c c/examples/door.c c/examples/select.c c/examples/run.c \
    c/tests/hostile.c; do
    name=$(basename "$source" .c)
    # shellcheck disable=SC2086
    tries "$source" cc $strict "$source" "$out/libfiruvaik.a" -o "$folder/$name"
  done
  finds sign.c 'SignedHeaders=host;my-header1;x-amz-date, Signature=' "$folder/sign"
  finds stream.c 'hello world' "$folder/stream"
  "$folder/stream" > "$folder/frames"
  finds watch.c '^hello world$' "$folder/watch" < "$folder/frames"
  head -c 100 "$folder/frames" | "$folder/watch" > /dev/null 2>&1 && { echo "checks/c.sh: watch.c takes a stream that breaks off"; failed=1; }
  tr w v < "$folder/frames" | "$folder/watch" > /dev/null 2>&1 && { echo "checks/c.sh: watch.c takes another event"; failed=1; }
  finds door.c '^let in: key 1, until 1440939060, signed: host$' "$folder/door"
  finds door.c '^refused: the request has another signature' "$folder/door"
  printf '[profile p]\nregion = us-east-1\n' > "$folder/config"
  printf '[p]\naws_access_key_id = AKIDEXAMPLE\naws_secret_access_key = wJalrXUtnFEMI/K7MDENG+bPxRfiCYEXAMPLEKEY\n' > "$folder/keys"
  vanilla='Signature=5fa00fa31553b73ebf1942676e86291e8372ff2a2260956d9b8aae1d763fbf31'
  finds select.c "$vanilla" env -i AWS_PROFILE=p "$folder/select" "$folder/config" "$folder/keys"
  finds select.c '^no variable and no profile has a key$' env -i "$folder/select" "$folder/config" "$folder/keys"
  finds select.c '^a line of the credentials text isn.t one of a profile file: 1$' env -i "$folder/select" /dev/null c/firuvaik.h
  finds run.c "$vanilla" "$folder/run"
  finds run.c '^[0-9a-f]\{166\}$' "$folder/run"
  tries hostile.c "$folder/hostile"
  # shellcheck disable=SC2086
  tries "the header in C++" cc -x c++ -Wall -Wextra -Werror -Ic -fsyntax-only c/examples/sign.c
  if has valgrind "the hostile caller's reads and writes"; then
    tries "hostile.c under valgrind" valgrind -q --error-exitcode=9 "$folder/hostile"
  fi
fi
if has python3 "the Python module"; then
  tries "the Python module" env FIRUVAIK_LIBRARY="$out/libfiruvaik.so" PYTHONDONTWRITEBYTECODE=1 python3 c/python/test_firuvaik.py
  for other in botocore awscrt; do
    python3 -c "import $other" 2> /dev/null || echo "checks/c.sh: $other is missing: nothing is compared with it"
  done
fi
if has cargo "the Rust crate"; then
  tries "the Rust crate" env CARGO_TARGET_DIR="$folder/rust" cargo test -q --offline --manifest-path c/rust/Cargo.toml
  rm -f c/rust/Cargo.lock
fi
exit "$failed"
