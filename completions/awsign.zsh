#compdef awsign
# Completion of the words of awsign for zsh: put it as _awsign where fpath looks.
_awsign() {
  local -a options sources help
  help=('(- *)--help[print the words of the command]')
  sources=(
    '--region[the region]:name:'
    '--profile[the profile]:name:'
    '--config[a config file]:file:_files'
    '--credentials[a credentials file]:file:_files'
  )
  options=(
    $help
    $sources
    '*-H[a header]:header:'
    '--service[the signing name]:name:'
    '--s3[the settings of Amazon S3]'
    '--at[the moment]:seconds:'
  )
  if ((CURRENT == 2)); then
    _values command 'sign[prints a signed request]' 'presign[prints a presigned URL]' 'verify[says who signed a request]' \
      'settings[says which key and region are used]' 'chunk[writes a body in chunks]' 'events[prints or verifies events, or writes their frames]' --help --version
    return
  fi
  if [[ $words[2] == events ]]; then
    if ((CURRENT == 3)); then
      _values action 'decode[prints events]' 'encode[writes frames]' 'verify[prints events whose signatures recompute]' --help
      return
    fi
    local -a forms=($help '(--hex)--raw[frames are bytes]' '(--raw)--hex[frames are lines of hexadecimal]')
    [[ $words[3] == encode ]] || forms+=('--as[the form]:form:(lines json)')
    [[ $words[3] == verify ]] && forms+=($sources '--service[the signing name]:name:' '--seed[the signature before the frames]:digits:')
    shift 2 words
    ((CURRENT -= 2))
    _arguments $forms
    return
  fi
  if [[ $words[2] == (sign|presign) ]]; then
    options+=(
      '--data[the body]:file:_files'
      '--payload-hash[the SHA-256 of the body]:digits:'
      '--payload-text[a text in place of the digest]:text:'
      '--unsigned[the body is not signed]'
      '--as[the form]:form:(curl headers json http url)'
    )
  fi
  if [[ $words[2] == chunk ]]; then
    options+=(
      '--data[the data]:file:_files'
      '--out[the file of the body]:file:_files'
      '--signed[signed chunks]'
      '--size[the bytes of a chunk]:bytes:'
      '--checksum[a checksum as a trailer]:checksum:(crc32 sha256)'
      '*--trailer[a trailer]:trailer:'
      '--as[the form]:form:(curl headers json http url)'
    )
  fi
  if [[ $words[2] == presign ]]; then
    options+=('--expires[how long it is good]:time:(10m 1h 12h 7d)' '--long[over seven days]')
  fi
  if [[ $words[2] == (sign|presign|chunk) ]]; then
    options+=('--encode-path[the path is raw]')
  fi
  if [[ $words[2] == settings ]]; then
    shift words
    ((CURRENT--))
    _arguments $help $sources
    return
  fi
  shift words
  ((CURRENT--))
  _arguments $options '1:method:(GET PUT POST HEAD DELETE PATCH)' '2:URL:_urls'
}
_awsign "$@"
