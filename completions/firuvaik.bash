# Completion of the words of firuvaik for bash: source this file, or put it where bash-completion looks.
_firuvaik() {
  local word=${COMP_WORDS[COMP_CWORD]} before=${COMP_WORDS[COMP_CWORD - 1]} words
  local profile='--service-id --config --credentials'
  case $before in
    '<' | '>' | '>>')
      # The file of a redirection: bash's own completion finds it.
      COMPREPLY=()
      return
      ;;
    --config | --credentials)
      mapfile -t COMPREPLY < <(compgen -f -- "$word")
      return
      ;;
    --name | --seed | --service-id | --at | --skew | --expires | --token-name | --size | --trailer)
      COMPREPLY=()
      return
      ;;
  esac
  if ((COMP_CWORD == 1)); then
    words='stream check watch settings chunk gen --help --version'
  else
    case ${COMP_WORDS[1]} in
      stream)
        words="--name --at --skew --raw --query --expires --token-name --omit-token --sha256 --unsigned --single-encode --no-normalize $profile"
        ;;
      check) words="--name $profile" ;;
      watch) words="--name --seed $profile" ;;
      settings) words=$profile ;;
      chunk) words='--size --trailer' ;;
      *) words= ;;
    esac
  fi
  # A word isn't a file, even where a folder has its name.
  compopt +o filenames 2> /dev/null
  mapfile -t COMPREPLY < <(compgen -W "$words" -- "$word")
}
complete -o bashdefault -o default -o filenames -F _firuvaik firuvaik
