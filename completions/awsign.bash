# Completion of the words of awsign for bash: source this file, or put it where bash-completion looks for it.

# The words that may stand behind a command, into `words`.
_awsign_words() {
  local sources='--region --profile --config --credentials'
  local request="-H --service --s3 --at $sources"
  local printed="$request --as --data --encode-path"
  local signed="$printed --payload-hash --payload-text --unsigned"
  case ${COMP_WORDS[1]}-${COMP_WORDS[2]} in
    sign-*) words=$signed ;;
    presign-*) words="$signed --expires --long" ;;
    verify-*) words=$request ;;
    settings-*) words=$sources ;;
    chunk-*) words="$printed --out --signed --size --checksum --trailer" ;;
    events-decode) words='--raw --hex --as' ;;
    events-encode) words='--raw --hex' ;;
    events-verify) words="--raw --hex --as --seed --service $sources" ;;
  esac
  case ${COMP_WORDS[1]}-$COMP_CWORD in
    *-1) words='sign presign verify settings chunk events --help --version' ;;
    events-2) words='decode encode verify --help' ;;
    settings-2 | events-3) words="$words --help" ;;
    sign-2 | presign-2 | verify-2 | chunk-2)
      words="$words --help"
      [[ ${COMP_WORDS[2]} == -* ]] || words='GET PUT POST HEAD DELETE PATCH'
      ;;
  esac
}

_awsign() {
  local word=${COMP_WORDS[COMP_CWORD]} before=${COMP_WORDS[COMP_CWORD - 1]} words=
  case $before in
    '<' | '>' | '>>')
      # The file of a redirection: bash's own completion finds it.
      COMPREPLY=()
      return
      ;;
    --data | --out | --config | --credentials)
      mapfile -t COMPREPLY < <(compgen -f -- "$word")
      return
      ;;
    -H | --payload-hash | --payload-text | --service | --region | --profile | --at | --size | --trailer | --seed)
      COMPREPLY=()
      return
      ;;
    --as)
      words='curl headers json http url'
      [[ ${COMP_WORDS[1]} == events ]] && words='lines json'
      ;;
    --checksum) words='crc32 sha256' ;;
    --expires) words='10m 1h 12h 7d' ;;
    *) _awsign_words ;;
  esac
  # A word isn't a file, even where a folder has its name.
  compopt +o filenames 2> /dev/null
  mapfile -t COMPREPLY < <(compgen -W "$words" -- "$word")
}
complete -o bashdefault -o default -o filenames -F _awsign awsign
