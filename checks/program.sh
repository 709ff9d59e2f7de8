#!/bin/sh
# Runs the built program on real files, variables, inputs and outputs. For each case in which it ends, writes or says
# something else than is wanted there is a line; the status is then 1. Another program computed the signatures.
crate=$(cd "$(dirname "$0")/../crates/firuvaik" && pwd) || exit 1
program=$crate/out/firuvaik
if [ ! -x "$program" ]; then
  echo "checks/program.sh: $program isn't built"
  exit 1
fi
folder=$(mktemp -d) || exit 1
trap 'rm -rf "$folder"' EXIT
cd "$folder" || exit 1
failed=0

# The text in a line of its own, and nothing for none.
line() {
  [ -z "$1" ] || printf '%s\n' "$1"
}

# Tells where what was found isn't what is wanted.
judge() {
  if [ "$found" -ne "$status" ]; then
    echo "$case: ended with $found and not $status"
  elif ! cmp -s found.out wanted.out; then
    echo "$case: wrote something else"
  elif ! cmp -s found.err wanted.err; then
    echo "$case: said something else: $(head -1 found.err)"
  else
    return
  fi
  failed=1
}

# compare CASE STATUS OUTPUT ERROR VARIABLE=VALUE.. PROGRAM WORD..: with these variables alone, and the caller's input.
compare() {
  case=$1 status=$2
  line "$3" > wanted.out
  line "$4" > wanted.err
  shift 4
  env -i "$@" > found.out 2> found.err
  found=$?
  judge
}

# ends CASE STATUS ERROR WORD..: where nothing is written.
ends() {
  case=$1 status=$2 error=$3
  shift 3
  compare "$case" "$status" '' "$error" "$program" "$@"
}

# fills CASE STATUS ERROR WORD..: where the output has no room.
fills() {
  case=$1 status=$2
  line "$3" > wanted.err
  : > wanted.out
  : > found.out
  shift 3
  env -i "$program" "$@" > /dev/full 2> found.err
  found=$?
  judge
}

# The lines that `settings` shows: profile, region, key id and token.
shown() {
  printf 'profile %s\nregion %s\nkey-id %s\ntoken %s' "$1" "$2" "$3" "$4"
}

secret=wJalrXUtnFEMI/K7MDENG+bPxRfiCYEXAMPLEKEY
mkdir -p home/.aws '~/.aws' folder/.aws/config folder/.aws/credentials
printf '[default]\nregion = us-east-1\n[profile other]\nregion = ap-south-1\n' > home/.aws/config
printf '[default]\naws_access_key_id = AKIDEXAMPLE\naws_secret_access_key = %s\naws_session_token = TOKEN\n' "$secret" > home/.aws/credentials
printf '[other]\naws_access_key_id = OTHER\naws_secret_access_key = S\n' >> home/.aws/credentials
printf '[default]\naws_access_key_id = HERE\naws_secret_access_key = S\nregion = r\n' > '~/.aws/config'
printf '[default]\naws_access_key_id = AKIDEXAMPLE\naws_secret_access_key = %s\nregion = us-east-1\n' "$secret" > first
printf '[default]\nregion = eu-west-1\n' > second
printf '[default]\nregion = us\n  east\n' > lines
printf '[default\nk=v\n' > faulty
printf '[default]\naws_access_key_id = K\naws_secret_access_key = S\nregion = \377\n' > bytes
printf 'method GET\ntarget https://h.example/\n' > job
: > nothing

# The default files.
compare 'files under HOME' 0 "$(shown default us-east-1 AKIDEXAMPLE yes)" '' HOME=home "$program" settings < nothing
compare 'files under a HOME with a slash' 0 "$(shown default us-east-1 AKIDEXAMPLE yes)" '' HOME="$folder/home/" "$program" settings < nothing
compare 'files without HOME' 0 "$(shown default r HERE no)" '' "$program" settings < nothing
compare 'no files under HOME' 7 '' 'refused 2 MissingCredentials' HOME=none "$program" settings < nothing
compare 'folders in place of files' 7 '' 'refused 2 MissingCredentials' HOME=folder "$program" settings < nothing
compare 'a profile by its variable' 0 "$(shown other ap-south-1 OTHER no)" '' HOME=home AWS_PROFILE=other "$program" settings < nothing
compare 'a region by its variable' 0 "$(shown default v AKIDEXAMPLE yes)" '' HOME=home AWS_REGION=v "$program" settings < nothing
compare "a region by the service's variable" 0 "$(shown default w AKIDEXAMPLE yes)" '' HOME=home AWS_REGION=v AWS_REGION_S_3=w "$program" settings --service-id 's 3' < nothing
compare 'an empty region by its variable' 0 "$(shown default '' AKIDEXAMPLE yes)" '' HOME=home AWS_REGION= "$program" settings < nothing
compare 'a config file by its variable' 0 "$(shown default eu-west-1 AKIDEXAMPLE yes)" '' HOME=home AWS_CONFIG_FILE=second "$program" settings < nothing
compare 'a config file by its variable, under HOME' 0 "$(shown default r HERE no)" '' HOME='~' AWS_CONFIG_FILE='~/.aws/config' "$program" settings < nothing
compare 'a credentials file by its variable' 0 "$(shown default us-east-1 AKIDEXAMPLE no)" '' HOME=home AWS_SHARED_CREDENTIALS_FILE=first "$program" settings < nothing
compare 'a config file that is absent' 7 '' 'refused 3 MissingSigningRegion' HOME=home AWS_CONFIG_FILE=none "$program" settings < nothing
compare 'a config file that is no text' 7 '' 'refused 3 MissingSigningRegion' HOME=home AWS_CONFIG_FILE=bytes "$program" settings < nothing
compare 'a config file outside the grammar' 7 '' 'refused 1 ParseError' HOME=home AWS_CONFIG_FILE=faulty "$program" settings < nothing
grep -v '^con\|^cre' "$crate/stdin" > events
compare 'a job under the default files' 0 "$(cat "$crate/stdout")" '' HOME=home "$program" stream --name transcribe --at 1440938160 < events

# Files that words name.
compare 'a file in place of the default ones' 0 "$(shown default us-east-1 AKIDEXAMPLE no)" '' HOME=home "$program" settings --config first < nothing
compare 'a file by its whole path' 0 "$(shown default us-east-1 AKIDEXAMPLE no)" '' "$program" settings --credentials "$folder/first" < nothing
compare 'two files' 0 "$(shown default eu-west-1 AKIDEXAMPLE no)" '' "$program" settings --config first --credentials second < nothing
compare 'two files in the other order' 0 "$(shown default us-east-1 AKIDEXAMPLE no)" '' "$program" settings --credentials second --config first < nothing
printf 'config [default]\nconfig region = last' > region
compare 'a file and then the input' 0 "$(shown default last AKIDEXAMPLE no)" '' "$program" settings --config first < region
compare 'a region of two lines' 0 "$(shown default us%0Aeast AKIDEXAMPLE no)" '' "$program" settings --credentials first --config lines < nothing
compare 'two config files' 0 'GET https://h.example/
x-amz-date: 20150830T123600Z
authorization: AWS4-HMAC-SHA256 Credential=AKIDEXAMPLE/20150830/eu-west-1/service/aws4_request, SignedHeaders=host;x-amz-date, Signature=802e2cda800e561c827ab88c377890c3bab5b44aded4f84505b600939620483f

0000005300000043f5447a58103a6368756e6b2d7369676e61747572650600200104e90cf78c423df821752842803286d8a0bf977dd40380d403c933c76d8c7b053a64617465080000014f7e9b6f80f4110ede' '' "$program" stream --name service --at 1440938160 --config first --config second < job
compare 'two config files in the other order' 0 'GET https://h.example/
x-amz-date: 20150830T123600Z
authorization: AWS4-HMAC-SHA256 Credential=AKIDEXAMPLE/20150830/us-east-1/service/aws4_request, SignedHeaders=host;x-amz-date, Signature=f224aadd83aadff557c2d5ec3eb347675d37fb3b2e8b53c437070eedfbafabb8

0000005300000043f5447a58103a6368756e6b2d7369676e617475726506002033cc8c747907729c0826ee94acfcc25ffacc8a4f0a081b64d0cc9f50b38d9059053a64617465080000014f7e9b6f80b6a2a5d7' '' "$program" stream --name service --at 1440938160 --config second --config first < job
ends 'a file that is absent' 6 'could not read file /no/such' settings --config /no/such < nothing
ends 'a file that is absent after one that stands' 6 'could not read file none' stream --name a --at 0 --config first --credentials none < job
ends 'a folder in place of a file' 6 'could not read file home' settings --config home < nothing
ends 'a path under a home' 6 'could not read file ~/.aws/none' settings --config '~/.aws/none' < nothing
ends 'a file that is no text' 7 'refused 2 MissingCredentials' settings --config bytes < nothing
ends 'a file outside the grammar' 7 'refused 1 ParseError' settings --config first --credentials faulty < nothing
{ head -c 16777016 /dev/zero | tr '\0' '\n'; cat first; } > long
head -c $((16777216 - $(wc -c < long))) /dev/zero | tr '\0' '\n' >> long
compare 'a file of 16777216 bytes' 0 "$(shown default us-east-1 AKIDEXAMPLE no)" '' "$program" settings --config long < nothing
echo >> long
ends 'a file of 16777217 bytes' 6 'could not read file long' settings --config long < nothing

# Each other end.
compare 'the example job' 0 "$(cat "$crate/stdout")" '' "$program" stream --at 1440938160 --config "$crate/data/config" --name transcribe < "$crate/stdin"
compare 'the version' 0 'firuvaik 0.1.0' '' "$program" --version < nothing
ends 'no word' 2 'bad word 1' < nothing
ends 'a word that is no text' 2 'bad word 1' settings --config "$(printf '\377')" < nothing
ends 'a missing name' 2 'bad word 2' stream < nothing
ends 'a second file of a kind' 2 'bad word 4' settings --config first --config second < nothing
head -c 67108865 /dev/zero > large
ends 'an input of 67108865 bytes' 3 'input over 67108864 bytes' settings < large
head -c 67108864 /dev/zero > large
ends 'an input of 67108864 bytes' 4 'bad line 1' settings < large
rm large
ends 'an empty job' 4 'bad line 1' stream --name a --at 0 < nothing
ends 'an empty job at the moments of the clock' 4 'bad line 1' stream --name a < nothing
ends 'a bad line after a missing file' 4 'bad line 1' settings --config none < job
ends 'a folder as the input' 5 'read fault' settings < home
ends 'no input' 5 'read fault' settings <&-
grep -v region first > keys
ends 'no region' 7 'refused 3 MissingSigningRegion' stream --name a --at 0 --config keys < job
fills 'a full output' 9 'output fault' settings --config first < nothing
fills 'a full output of a job' 9 'output fault' stream --name a --at 0 --config first < job
fills 'a full output of the help' 9 'output fault' --help < nothing
if (ulimit -v 20000) 2> /dev/null; then
  (ulimit -v 20000 && exec env -i "$program" settings --config long) < nothing > found.out 2> found.err
  found=$? case='want of memory' status=10
  : > wanted.out
  line 'no memory' > wanted.err
  judge
fi
env -i "$program" settings --config second < nothing > found.out 2> /dev/full
found=$? case='a line that has no room' status=7
: > wanted.out
: > wanted.err
: > found.err
judge
ends 'no name' 2 'bad word 3' stream --raw < nothing
"$program" --help | awk 'length > 80 { print "--help: a line is over 80 wide: " $0; wide = 1 } END { exit wide }' || failed=1
# The frames of a job are the same bytes, raw and as lines of hexadecimal.
"$program" stream --name a --at 0 --config first < job | sed '1,/^$/d' | tr -d '\n' > frames.hex
"$program" stream --name a --at 0 --config first --raw < job | od -An -v -tx1 | tr -d ' \n' > raw.hex
if [ ! -s raw.hex ] || ! cmp -s frames.hex raw.hex; then
  echo 'raw frames: other bytes than the lines'
  failed=1
fi
# What is written for the example job passes the check, and without its closing frame it doesn't.
{ grep '^cre' "$crate/stdin" && echo record && cat "$crate/stdout"; } > record
compare 'the record of the example job' 0 'ok 3
000000340000001fbc8bccda0d3a6d6573736167652d747970650700056576656e7403736571040000000168656c6c6f2cfa13ad
0000001c0000000cc984e9c1026174080000014f7e9b6ffbdaf45f08
00000016000000048def7952026f6b0000ffd7f497c4' '' "$program" check --name transcribe --config "$crate/data/config" < record
sed '$d' record > open
ends 'a record without its closing frame' 8 'check failed at frame 4 NoClosing' check --name transcribe --config "$crate/data/config" < open
# Without a moment among the words the request has the clock's.
begun=$(date +%s)
"$program" stream --name a --config first < job | sed -n '1,/^$/p' > clock.head
over=$(date +%s)
digits='s/^x-amz-date: \(....\)\(..\)\(..\)T\(..\)\(..\)\(..\)Z$/\1-\2-\3 \4:\5:\6/p'
moment=$(date -u -d "$(sed -n "$digits" clock.head)" +%s)
"$program" stream --name a --at "$moment" --config first < job | sed -n '1,/^$/p' > fixed.head
if [ "$moment" -lt "$begun" ] || [ "$moment" -gt "$over" ] || ! cmp -s clock.head fixed.head; then
  echo 'no moment among the words: another head than at the moment of the clock'
  failed=1
fi
exit "$failed"
