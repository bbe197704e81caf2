# Completion of bash for bin/gateward and the scripts beside it: `source bin/completions.bash`. The commands and options are those of --help.

# The options that a usage line on standard input has.
_gateward_options() { grep '^usage: ' | grep -o -e '--[a-z]*' | sort -u; }

_gateward() {
  local command=$1 current=$2 word name=''
  COMPREPLY=()
  command -v "$command" >/dev/null || return 0
  for word in "${COMP_WORDS[@]:1:COMP_CWORD-1}"; do
    [ "$word" = --try ] || { name=$word; break; }
  done
  if [ -z "$name" ]; then
    mapfile -t COMPREPLY < <(compgen -W "$("$command" --help | sed -n 's/^usage: gateward \([a-z]*\) .*/\1/p') --try --help --version" -- "$current")
  elif [[ $current == -* ]]; then
    mapfile -t COMPREPLY < <(compgen -W "$("$command" "$name" --help 2>/dev/null | _gateward_options) --help" -- "$current")
  elif [ -z "$current" ]; then
    # (two, so that none is put in: the form of a DOOR is shown)
    COMPREPLY=("namespace/name:port=127.0.0.1:port" " ")
  fi
}
complete -F _gateward gateward

# The scripts that have options alone.
_gateward_script() {
  local command=$1 current=$2
  COMPREPLY=()
  command -v "$command" >/dev/null || return 0
  if [[ $current == -* ]]; then
    mapfile -t COMPREPLY < <(compgen -W "$("$command" --help 2>&1 | _gateward_options)" -- "$current")
  else
    compopt -o default 2>/dev/null
  fi
}
complete -F _gateward_script gateward-feed gateward-view
