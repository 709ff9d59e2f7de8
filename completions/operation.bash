# Completion of the words of operation for bash: source this file, or put it where bash-completion looks for it.
_operation() {
  local word=${COMP_WORDS[COMP_CWORD]} before=${COMP_WORDS[COMP_CWORD - 1]} words='--name --at --service-id --config --credentials'
  case $before in
    --config | --credentials)
      mapfile -t COMPREPLY < <(compgen -f -- "$word")
      return
      ;;
    --name | --at | --service-id)
      COMPREPLY=()
      return
      ;;
  esac
  if ((COMP_CWORD == 1)); then
    words="$words --help --version"
  fi
  mapfile -t COMPREPLY < <(compgen -W "$words" -- "$word")
}
complete -o bashdefault -o default -o filenames -F _operation operation
