# Completion of egasim for bash. dist/install puts before it what the tools declare: _egasim_tools and _egasim_tool.
_egasim() {
  local word=${COMP_WORDS[COMP_CWORD]} command=${COMP_WORDS[1]} place=$((COMP_CWORD - 1)) campaign names ending=toml
  local commands='run table margins record couple sweep soak check replay signals bound limits coverage answers asm dis'
  local tools=$_egasim_tools
  COMPREPLY=()
  if [ "$place" -eq 0 ]; then
    mapfile -t COMPREPLY < <(compgen -W "$commands $tools help prove --help --version" -- "$word")
    return
  elif [ "$command:$place" = help:1 ]; then
    mapfile -t COMPREPLY < <(compgen -W "$commands $tools" -- "$word")
    return
  elif [[ " $tools " == *" $command "* ]]; then
    _egasim_tool "$command" "$word" "${COMP_WORDS[COMP_CWORD - 1]}"
    return
  fi
  # The place is counted without --cal and its file.
  if [ "${COMP_WORDS[2]}" = --cal ] && [ "$place" -gt 1 ]; then
    place=$((place - 2))
    campaign=${COMP_WORDS[4]}
  else
    campaign=${COMP_WORDS[2]}
  fi
  case $command:$place in
  run:1 | table:1 | margins:1 | record:1 | couple:1 | sweep:1 | answers:1 | *:0) ;;
  check:1) ending=csv ;;
  asm:1) ending=asm ;;
  dis:1) ending=hex ;;
  record:2 | couple:2 | sweep:2)
    [ -f "$campaign" ] || return
    names=$(head -c 4194304 -- "$campaign" | sed -n 's/^ *name *= *"\([a-z0-9-]*\)".*/\1/p')
    mapfile -t COMPREPLY < <(compgen -W "$names" -- "$word")
    return
    ;;
  bound:1 | limits:1 | coverage:1 | replay:1 | signals:1) ending= ;;
  *) return ;;
  esac
  compopt -o filenames 2>/dev/null
  [ -z "$ending" ] || mapfile -t COMPREPLY < <(compgen -f -X "!*.$ending" -- "$word"; compgen -d -- "$word")
  case $command:$place in
  run:1 | table:1 | margins:1 | record:1 | couple:1 | sweep:1 | check:1 | bound:1 | limits:1 | coverage:1 | replay:1 | signals:1)
    if [ "$COMP_CWORD" -eq 2 ]; then
      mapfile -t -O "${#COMPREPLY[@]}" COMPREPLY < <(compgen -W --cal -- "$word")
    fi
    ;;
  esac
}
complete -F _egasim egasim
