#!/usr/bin/env bash
# Runs the built programs at and around each limit of docs/FORMATS.md, under a hard limit of memory (`ulimit -v`, which counts what
# is mapped) and of processor time: four times the input for a job, a record, a request or data in chunks, some copies of the largest
# frame for `watch`, and the text's own length for a profile file, each and 22 MB for the program itself. A line for each run that
# ends with another exit number, line or length of its output, and then a line of counts; the status is 1 where there was one.
#   campaigns/sizes.sh [WORD]    the cases whose names hold WORD alone
set -u
crates=$(cd "$(dirname "$0")/../crates" && pwd)
only=${1:-}
folder=$(mktemp -d)
trap 'rm -rf "$folder"' EXIT
cd "$folder" || exit 1
failed=0 ran=0
# Kilobytes that a run may map, beside what it reads, and the seconds that it may compute.
own=22000 seconds=30

# make FILE EXPRESSION: the bytes that the expression of Python gives.
make() {
  python3 -c "import sys; sys.stdout.buffer.write($2)" > "$1"
}

# compare CASE STATUS ERROR LENGTH KILOBYTES INPUT PROGRAM WORD..: each compiler's program, with so many kilobytes beside its own;
# LENGTH is that of its output.
compare() {
  local case=$1 status=$2 error=$3 length=$4 room=$5 input=$6 program=$7 built found
  shift 7
  case $case in *"$only"*) ;; *) return ;; esac
  for built in "$crates/$program/out/$program" "$crates/$program/out/$program.by-rattle"; do
    [ -x "$built" ] || continue
    (ulimit -v $((own + room)) -t "$seconds" && exec env -i "$built" "$@") < "$input" > found.out 2> found.err
    found=$?
    ran=$((ran + 1))
    if [ "$found" -ne "$status" ] || [ "$(cat found.err)" != "$error" ] || [ "$(stat -c %s found.out)" -ne "$length" ]; then
      echo "sizes.sh: $case, ${built##*/}: ended with $found, $(stat -c %s found.out) bytes, $(head -c 100 found.err), and not $status, $length bytes, $error"
      failed=$((failed + 1))
    fi
  done
}

# frames CASE STATUS ERROR LENGTH KILOBYTES LINES: the frames of a job of one event with these lines, an expression of Python.
frames() {
  make job "open('front', 'rb').read() + b'event\n' + $6"
  compare "$1" "$2" "$3" "$4" "$5" job firuvaik stream --name a --at 0 --raw
}

for program in firuvaik presigned operation awsign; do
  [ -x "$crates/$program/out/$program" ] || { echo "sizes.sh: $program isn't built: campaigns/build.sh does that"; exit 1; }
done
printf 'config [default]\nconfig region = r\ncredentials [default]\ncredentials aws_access_key_id = K\ncredentials aws_secret_access_key = S\n' > profile
{ printf 'method GET\ntarget https://h/\n' && cat profile; } > front
: > nothing
kilo=1024 mega=$((1024 * 1024))
input=$((64 * mega)) file=$((16 * mega))

# The input: 67,108,864 bytes. What is shown of the profile `default` is 42 bytes.
shown=$(printf 'profile default\nregion r\nkey-id K\ntoken no\n' | wc -c)
make input "open('profile', 'rb').read().ljust($input, b'\n')"
compare 'an input of 67108864 bytes' 0 '' "$shown" $((4 * input / kilo)) input firuvaik settings
echo >> input
compare 'an input of 67108865 bytes' 3 'input over 67108864 bytes' 0 $((4 * input / kilo)) input firuvaik settings
# A job of the largest size, whose one body is signed, and what is written of it: the head and a closing frame of 83 bytes.
make input "(open('front', 'rb').read() + b'\n' * ($(wc -c < front) % 2 == 0) + b'body ').ljust($input, b'0')"
compare 'a job of 67108864 bytes' 0 '' 83 $((4 * input / kilo)) input firuvaik stream --name a --at 0 --raw
printf 0 >> input
compare 'a job of 67108865 bytes' 3 'input over 67108864 bytes' 0 $((4 * input / kilo)) input firuvaik stream --name a --at 0 --raw
# A line of 64 MiB, and 64 MiB that are no text at their end.
make input "b'method '.ljust($input, b'm')"
compare 'a line of 67108864 bytes' 4 'bad line 2' 0 $((4 * input / kilo)) input firuvaik stream --name a --at 0
make input "b'\n' * ($input - 1) + b'\xff'"
compare 'an input that is no text at its end' 4 "bad line $input" 0 $((4 * input / kilo)) input firuvaik settings
# The body of `chunk`: 1,024 chunks of 65,536 bytes, and one of 64 MiB.
make input "bytes($input)"
compare 'a body of 67108864 bytes' 0 '' $((input + 1024 * 9 + 5)) $((4 * input / kilo)) input firuvaik chunk
compare 'a chunk of 67108864 bytes' 0 '' $((input + 11 + 5)) $((4 * input / kilo)) input firuvaik chunk --size 67108864
compare 'a chunk size of 67108865' 2 'bad word 3' 0 $((4 * input / kilo)) nothing firuvaik chunk --size 67108865
printf 0 >> input
compare 'a body of 67108865 bytes' 3 'input over 67108864 bytes' 0 $((4 * input / kilo)) input firuvaik chunk

# A profile file: 16,777,216 bytes.
make keys "b'[default]\naws_access_key_id = K\naws_secret_access_key = S\nregion = r\n'.ljust($file, b'#')"
compare 'a profile file of 16777216 bytes' 0 '' "$shown" $((2 * file / kilo)) nothing firuvaik settings --credentials keys
echo >> keys
compare 'a profile file of 16777217 bytes' 6 'could not read file keys' 0 $((2 * file / kilo)) nothing firuvaik settings --credentials keys
compare 'an endless profile file' 6 'could not read file /dev/zero' 0 $((2 * file / kilo)) nothing firuvaik settings --credentials /dev/zero

# A target: 65,534 bytes, and in the query form with what is added to it.
target() {
  make job "b'method GET\ntarget ' + b'https://h/'.ljust($1, b'a') + b'\n' + open('profile', 'rb').read()"
}
target 65534
compare 'a target of 65534 bytes' 0 '' 83 $((4 * mega / kilo)) job firuvaik stream --name a --at 0 --raw
target 65535
compare 'a target of 65535 bytes' 7 'refused 5 InvalidUri' 0 $((4 * mega / kilo)) job firuvaik stream --name a --at 0 --raw
target 10
env -i "$crates/firuvaik/out/firuvaik" stream --name a --at 0 --query --expires 9 < job | sed -n 1p > head
added=$(($(wc -c < head) - 4 - 10 - 1))
target $((65534 - added))
compare 'a presigned target of 65534 bytes' 0 '' $((4 + 65534 + 2 + 167)) $((4 * mega / kilo)) job firuvaik stream --name a --at 0 --query --expires 9
target $((65535 - added))
compare 'a presigned target of 65535 bytes' 7 'refused 5 InvalidUri' 0 $((4 * mega / kilo)) job firuvaik stream --name a --at 0 --query --expires 9

# The name of a request's header: 65,535 bytes.
named() {
  make job "open('front', 'rb').read() + b'header ' + b'n' * $1 + b': v\n'"
}
named 65535
compare 'a header name of 65535 bytes' 0 '' 83 $((4 * mega / kilo)) job firuvaik stream --name a --at 0 --raw
named 65536
compare 'a header name of 65536 bytes' 7 'refused 6 InvalidHeaderName' 0 $((4 * mega / kilo)) job firuvaik stream --name a --at 0 --raw

# An event: a frame has 16 bytes beside its headers and its payload, and the signed one 83 beside the event's; the closing one has 83.
frame=$((16 + 83 + 83))
frames 'an event header name of 255 bytes' 0 '' $((frame + 257)) $((4 * mega / kilo)) "b'h ' + b'n' * 255 + b' true\n'"
frames 'an event header name of 256 bytes' 7 'refused 11 InvalidHeaderNameLength' 0 $((4 * mega / kilo)) "b'h ' + b'n' * 256 + b' true\n'"
for kind in text bytes; do
  digit=$([ $kind = text ] && echo v || echo 00)
  frames "a $kind of 32767 bytes" 0 '' $((frame + 5 + 32767)) $((4 * mega / kilo)) "b'h n $kind ' + b'$digit' * 32767"
  frames "a $kind of 32768 bytes" 7 'refused 12 HeaderValueTooLong' 0 $((4 * mega / kilo)) "b'h n $kind ' + b'$digit' * 32768"
done
three="b''.join(b'h ' + name + b' text ' + b'v' * 32767 + b'\n' for name in (b'a', b'b', b'c'))"
frames 'a header block of 131072 bytes' 0 '' $((frame + 131072)) $((4 * mega / kilo)) "$three + b'h d text ' + b'v' * 32751"
frames 'a header block of 131073 bytes' 7 'refused 14 HeadersTooLong' 0 $((4 * mega / kilo)) "$three + b'h d text ' + b'v' * 32752"
frames 'a signed frame of 16777216 bytes' 0 '' $((16777216 + 83)) $((4 * 2 * file / kilo)) "b'payload ' + b'00' * 16777117"
frames 'a signed frame of 16777217 bytes' 7 'refused 16 MessageTooLong' 0 $((4 * 2 * file / kilo)) "b'payload ' + b'00' * 16777118"
frames 'a signed payload of 16777200 bytes' 7 'refused 16 MessageTooLong' 0 $((4 * 2 * file / kilo)) "b'payload ' + b'00' * 16777184"
frames 'a signed payload of 16777201 bytes' 7 'refused 15 PayloadTooLong' 0 $((4 * 2 * file / kilo)) "b'payload ' + b'00' * 16777185"
frames 'a payload of 16777200 bytes' 7 'refused 15 PayloadTooLong' 0 $((4 * 2 * file / kilo)) "b'payload ' + b'00' * 16777200"
frames 'a payload of 16777201 bytes' 7 'refused 15 PayloadTooLong' 0 $((4 * 2 * file / kilo)) "b'payload ' + b'00' * 16777201"
frames 'a frame of 16777217 bytes' 7 'refused 16 MessageTooLong' 0 $((4 * 2 * file / kilo)) "b'h n text 0123456789\npayload ' + b'00' * 16777186"
frames 'the last millisecond' 0 '' $((frame + 11)) $((4 * mega / kilo)) "b'h n time 9223372036854775 807999999'"
frames 'the millisecond after the last' 7 'refused 13 TimestampValueTooLarge' 0 $((4 * mega / kilo)) "b'h n time 9223372036854775 808000000'"

# Lines of a few bytes, up to 8 MiB of each shape: the list that holds them takes up to 32 times their length, and the time is linear.
many=$((32 * 8 * mega / kilo))
make job "open('front', 'rb').read() + b'header a: b\n' * 699050"
compare '699050 headers' 0 '' 83 "$many" job firuvaik stream --name a --at 0 --raw
make job "open('front', 'rb').read() + b'event\n' * 300000"
compare '300000 events' 0 '' $((300000 * 99 + 83)) "$many" job firuvaik stream --name a --at 0 --raw
make job "open('front', 'rb').read() + (b'event\n' + b'h a true\n' * 43690) * 21"
compare '21 events of 43690 headers' 0 '' $((21 * (99 + 43690 * 3) + 83)) "$many" job firuvaik stream --name a --at 0 --raw
make job "open('profile', 'rb').read() + b'record\nGET https://h/\n' + b'a: b\n' * 1677721 + b'\n'"
compare 'a record of 1677721 headers' 8 'check failed at frame 0 NoSignature' 0 "$many" job firuvaik check --name a
make job "open('profile', 'rb').read() + b''.join(b'config [profile p%d]\n' % n for n in range(340000))"
compare '340000 profiles' 0 '' "$shown" "$many" job firuvaik settings

# Moments, expiries, counts.
cp front job
compare 'the last second' 0 '' 83 $((4 * mega / kilo)) job firuvaik stream --name a --raw --at 253402300799
compare 'the second after the last' 7 'refused 4 MomentOutOfRange' 0 $((4 * mega / kilo)) job firuvaik stream --name a --raw --at 253402300800
compare 'the first second' 0 '' 83 $((4 * mega / kilo)) job firuvaik stream --name a --raw --at -62167219200
compare 'the second before the first' 7 'refused 4 MomentOutOfRange' 0 $((4 * mega / kilo)) job firuvaik stream --name a --raw --at -62167219201
compare 'a moment over 64 bits' 2 'bad word 5' 0 $((4 * mega / kilo)) job firuvaik stream --name a --at 9223372036854775808
compare 'an expiry of 64 bits' 0 '' 83 $((4 * mega / kilo)) job firuvaik stream --name a --raw --at 0 --query --expires 18446744073709551615
compare 'an expiry over 64 bits' 2 'bad word 8' 0 $((4 * mega / kilo)) job firuvaik stream --name a --at 0 --query --expires 18446744073709551616
compare '100000 events' 0 '' "$(printf 'events 100000\nbytes 14000000\nsignature %064d\n' 0 | wc -c)" $((200 * 1000)) nothing firuvaik gen 18446744073709551615 100000
compare '100001 events' 2 'bad word 3' 0 $((4 * mega / kilo)) nothing firuvaik gen 7 100001
compare 'a seed over 64 bits' 2 'bad word 2' 0 $((4 * mega / kilo)) nothing firuvaik gen 18446744073709551616 1

# The input of `watch`: frames of 67,108,864 bytes in all, and one byte more.
cat > chain.py <<'END'
import hashlib
import hmac
import sys
import zlib


def framed(headers, payload):
    front = (16 + len(headers) + len(payload)).to_bytes(4, "big") + len(headers).to_bytes(4, "big")
    front += zlib.crc32(front).to_bytes(4, "big") + headers + payload
    return front + zlib.crc32(front).to_bytes(4, "big")


key = b"AWS4S"
for part in (b"19700101", b"r", b"a", b"aws4_request"):
    key = hmac.digest(key, part, "sha256")
date, last = b"\x05:date\x08" + bytes(8), b"0" * 64
for size in map(int, sys.argv[1:]):
    inner = framed(b"", bytes(size - 99)) if size > 83 else b""
    told = [b"AWS4-HMAC-SHA256-PAYLOAD", b"19700101T000000Z", b"19700101/r/a/aws4_request", last, *[hashlib.sha256(text).hexdigest().encode() for text in (date, inner)]]
    code = hmac.digest(key, b"\n".join(told), "sha256")
    last = code.hex().encode()
    sys.stdout.buffer.write(framed(b"\x10:chunk-signature\x06\x00\x20" + code + date, inner))
END
watched() {
  compare "$1" "$2" "$3" "$4" $((6 * file / kilo)) chain firuvaik watch --name a --seed "$(printf %064d 0)" --config region --credentials keys
}
printf '[default]\nregion = r\n' > region
printf '[default]\naws_access_key_id = K\naws_secret_access_key = S\n' > keys
# A frame of N bytes carries an event of N - 83, whose line has twice as many digits and an LF.
python3 chain.py $file $file $file $((file - 83)) 83 > chain
lines=$((4 * (2 * (file - 83) + 1) - 2 * 83))
watched 'a chain of 67108864 bytes' 0 '' $((lines + 5))
printf x >> chain
watched 'a chain of 67108864 bytes and one more' 3 'input over 67108864 bytes' "$lines"
python3 chain.py $file $file $file $file 83 > chain
watched 'a chain of 67108947 bytes' 3 'input over 67108864 bytes' $((4 * (2 * (file - 83) + 1)))
make chain "(lambda front: front + __import__('zlib').crc32(front).to_bytes(4, 'big'))(b'\x01\0\0\x01' + bytes(4))"
watched 'a frame that announces 16777217 bytes' 8 'check failed at frame 1 NotFrame' 0

# The inputs of `presigned` and `operation`, and the target that the latter sends.
crate=$crates/presigned
make job "open('$crate/stdin', 'rb').read().ljust($input, b'\n')"
compare 'a presigned job of 67108864 bytes' 0 '' "$(wc -c < "$crate/stdout")" $((4 * input / kilo)) job presigned --name service --at 1440938160
echo >> job
compare 'a presigned job of 67108865 bytes' 3 'input over 67108864 bytes' 0 $((4 * input / kilo)) job presigned --name service --at 1440938160
crate=$crates/operation
make job "open('$crate/stdin', 'rb').read().ljust($input, b'\n')"
compare 'an operation of 67108864 bytes' 0 '' "$(wc -c < "$crate/stdout")" $((4 * input / kilo)) job operation --name service --at 1440938160
echo >> job
compare 'an operation of 67108865 bytes' 3 'input over 67108864 bytes' 0 $((4 * input / kilo)) job operation --name service --at 1440938160
# The head of the one request, which is longer by as much as its target.
replied() {
  target "$1"
  echo 'reply 200 -' >> job
}
replied 10
added=$(env -i "$crate/out/operation" --name a --at 0 < job | wc -c)
replied 65534
compare 'an operation to a target of 65534 bytes' 0 '' $((added + 65524)) $((4 * mega / kilo)) job operation --name a --at 0
replied 65535
compare 'an operation to a target of 65535 bytes' 7 'refused 5 InvalidUri' 0 $((4 * mega / kilo)) job operation --name a --at 0
make job "open('front', 'rb').read() + b'reply 503 a\n' * 699050"
added=$(head -20 job | env -i "$crate/out/operation" --name a --at 0 | wc -c)
compare '699050 replies' 0 '' "$added" "$many" job operation --name a --at 0

# The words, the data and the requests of `awsign`, whose options of profiles stand last.
tool() {
  compare "$1" "$2" "$3" "$4" "$5" "$6" awsign "${@:7}" --credentials keys
}
address() {
  python3 -c "print('https://h/'.ljust($1, 'a'))"
}
printf '[default]\nregion = r\naws_access_key_id = K\naws_secret_access_key = S\n' > keys
few=$((4 * mega / kilo)) unsigned="awsign: the request can't be signed: "
asked='sign GET https://h/ --service a --at'
links='--service a --at 0 --expires'
tool 'a URL of 65534 bytes' 0 '' 65535 $few nothing sign GET "$(address 65534)" --service a --at 0 --as url
tool 'a URL of 65535 bytes' 1 "${unsigned}invalid target" 0 $few nothing sign GET "$(address 65535)" --service a --at 0 --as url
added=$(($(env -i "$crates/awsign/out/awsign" presign GET https://h/ $links 9 --credentials keys | wc -c) - 11))
tool 'a presigned URL of 65534 bytes' 0 '' 65535 $few nothing presign GET "$(address $((65534 - added)))" $links 9
tool 'a presigned URL of 65535 bytes' 1 "${unsigned}invalid target" 0 $few nothing presign GET "$(address $((65535 - added)))" $links 9
tool 'a header of 65535 bytes' 0 '' 131282 $few nothing $asked 0 --as headers -H "$(head -c 65535 /dev/zero | tr '\0' n): v"
tool 'a header of 65536 bytes' 1 "${unsigned}invalid name of header 1" 0 $few nothing $asked 0 -H "$(head -c 65536 /dev/zero | tr '\0' n): v"
tool 'an expiry of 604800 seconds' 0 '' $((11 + added + 5)) $few nothing presign GET https://h/ $links 604800
tool 'an expiry of 604801 seconds' 1 'awsign: the URL would be good for over 604800 seconds, which AWS refuses; --long makes it all the same' 0 $few nothing presign GET https://h/ $links 604801
tool 'an expiry of 64 bits for awsign' 0 '' $((11 + added + 19)) $few nothing presign GET https://h/ --long $links 18446744073709551615
tool 'an expiry over 64 bits for awsign' 2 "awsign: word 10 isn't understood here: 18446744073709551616; awsign COMMAND --help lists the words" 0 $few nothing presign GET https://h/ --long $links 18446744073709551616
tool 'the last second for awsign' 0 '' 11 $few nothing $asked 253402300799 --as url
tool 'the second after the last for awsign' 1 "${unsigned}moment 253402300800 is outside the years 0 to 9999" 0 $few nothing $asked 253402300800
# Data is hashed piece by piece: a file of 256 MiB takes no more memory than one of a byte.
truncate -s 256M sparse
tool 'data of 256 MiB' 0 '' 11 $few nothing $asked 0 --as url --data sparse
rm sparse
# `chunk` keeps two chunks of a file, and data whose length isn't told: endless data ends as the memory does.
make data "bytes($file)"
upload='chunk PUT https://h/ --service a --at 0 --as url --out chunked'
tool 'data of 16777216 bytes in chunks' 0 '' 11 $((4 * file / kilo)) nothing $upload --data data --signed
tool 'data of 16777216 bytes in one chunk' 0 '' 11 $((2 * 67108864 / kilo)) nothing $upload --data data --size 67108864
tool 'a chunk size of 67108865 for awsign' 2 "awsign: word 13 isn't understood here: 67108865; awsign COMMAND --help lists the words" 0 $few nothing $upload --size 67108865
tool 'endless data' 3 'awsign: no memory' 0 $((4 * file / kilo)) nothing $upload --data /dev/zero
# A request of 67,108,864 bytes, head and body, one more, and one of many headers.
env -i "$crates/awsign/out/awsign" sign PUT https://h/ --s3 --at 0 --unsigned --as http --credentials keys > head
told=$(env -i "$crates/awsign/out/awsign" verify --s3 --at 0 --credentials keys < head | wc -c)
make request "open('head', 'rb').read().ljust($input, b'0')"
tool 'a request of 67108864 bytes' 0 '' "$told" $((4 * input / kilo)) request verify --s3 --at 0
printf 0 >> request
tool 'a request of 67108865 bytes' 3 'awsign: the request has over 67108864 bytes' 0 $((4 * input / kilo)) request verify --s3 --at 0
make request "open('head', 'rb').read()[:-2] + b'a:\r\n' * 2097152 + b'\r\n'"
tool 'a request of 2097152 headers' 0 '' "$told" "$many" request verify --s3 --at 0

echo "sizes.sh: $ran runs, $failed failed"
[ "$failed" -eq 0 ]
