# Completion for bash, which ./install puts where bash finds it: the modes and options of bpfmap, and the options of its tools.

_bpfmap() {
  local word=${COMP_WORDS[COMP_CWORD]} one modes='serial race gen compare check copy' options='--history --dump --json' given=' '
  # (behind a redirection stands a file)
  if [[ ${COMP_WORDS[COMP_CWORD - 1]} == [\<\>]* ]]; then
    mapfile -t COMPREPLY < <(compgen -f -- "$word")
    return
  fi
  for one in "${COMP_WORDS[@]:1:COMP_CWORD-1}"; do
    given+="$one "
    [[ " $modes " != *" $one "* ]] || modes=
    options=${options/$one/}
  done
  case $given in
    *' compare '* | *' check '*) options= ;;
    *' copy '*) options=${options/--json/} ;;
  esac
  [ "$given" != ' ' ] || options+=' --help --version'
  mapfile -t COMPREPLY < <(compgen -W "$modes $options" -- "$word")
}

# (a tool tells its options itself)
_bpfmap_tool() {
  local word=${COMP_WORDS[COMP_CWORD]}
  if [[ $word == -* ]]; then
    mapfile -t COMPREPLY < <(compgen -W "$("$1" --help 2>/dev/null | grep -o -e '--[a-z][a-z-]*' | sort -u)" -- "$word")
  else
    mapfile -t COMPREPLY < <(compgen -f -- "$word")
  fi
}

complete -F _bpfmap bpfmap bpfmap-try
complete -o filenames -F _bpfmap_tool bpfmap-why bpfmap-timeline bpfmap-flows bpfmap-from-bpftool bpfmap-beside-kernel \
  bpfmap-explain bpfmap-judge
