"""Completion of the words of tools for bash, which dist/completion.bash calls."""

CALLED = """_egasim_tool() {
  local options= endings= ending
  case $1:$3 in
%s
  *)
    case $1 in
%s
    esac
    ;;
  esac
  if [[ $2 = -* ]]; then
    mapfile -t COMPREPLY < <(compgen -W "$options" -- "$2")
  elif [ -n "$endings" ]; then
    compopt -o filenames 2>/dev/null
    for ending in $endings; do
      mapfile -t -O "${#COMPREPLY[@]}" COMPREPLY < <(compgen -f -X "!*.$ending" -- "$2")
    done
    mapfile -t -O "${#COMPREPLY[@]}" COMPREPLY < <(compgen -d -- "$2")
  else
    compopt -o default 2>/dev/null
  fi
}
"""


def completion(tools):
    """The names of the tools, and a function that completes a word of one: behind an option what it takes, else options, or
    files that have the endings of the tool's."""
    behind = [f"  {tool.name}:{word.name}) endings='{word.kind.ending or ''}' ;;"
              for tool in tools for word in tool.words() if word.is_option() and word.kind]
    each = [f"    {tool.name}) options='{' '.join(sorted(options_of(tool)))}' endings='{' '.join(sorted(endings_of(tool)))}' ;;"
            for tool in tools]
    return f"_egasim_tools='{' '.join(tool.name for tool in tools)}'\n" + CALLED % ("\n".join(behind), "\n".join(each))


def options_of(tool):
    return {word.name for word in tool.words() if word.is_option()} | {form.command for form in tool.forms if form.command}


def endings_of(tool):
    """The endings of files that a tool takes; none if one of its words may be any file."""
    endings = {word.kind.ending for word in tool.words() if not word.is_option()}
    return set() if None in endings else endings
