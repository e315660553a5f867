"""Completion of the program's words in bash, zsh and fish, by the program's help."""
from typing import Dict

from .helps import Command, Program

BASH = """# Completion of sortition in bash, made from the program's help.
_sortition() {{
  local word=${{COMP_WORDS[COMP_CWORD]}} before=${{COMP_WORDS[COMP_CWORD - 1]}} words=
  COMPREPLY=()
  if [ "$COMP_CWORD" = 1 ]; then
    words='{names} help'
  else
    case $before in
{values}
    esac
    case ${{COMP_WORDS[1]}} in
      help) [ "$COMP_CWORD" = 2 ] && words='{names}' ;;
{options}
    esac
  fi
  mapfile -t COMPREPLY < <(compgen -W "$words" -- "$word")
}}
complete -o default -F _sortition sortition
"""

ZSH = """#compdef sortition
# Completion of sortition in zsh, made from the program's help.
_sortition() {{
  local -a commands
  commands=(
{commands}
    'help:Prints all commands, or the options of one'
  )
  if (( CURRENT == 2 )); then
    _describe command commands
    return
  fi
  case $words[2] in
    help) (( CURRENT == 3 )) && _describe command commands ;;
{options}
  esac
}}
_sortition "$@"
"""


def takes_file(name: str) -> bool:
    return name == 'store'


def for_bash(program: Program) -> str:
    names = ' '.join(program.commands)
    valued = sorted({f'--{option.name}' for it in program.commands.values() for option in it.options if option.value})
    files = [it for it in valued if takes_file(it[2:])]
    rest = [it for it in valued if it not in files]
    values = f'      {" | ".join(files)})\n        mapfile -t COMPREPLY < <(compgen -f -- "$word")\n        return ;;\n' if files else ''
    values += f'      {" | ".join(rest)}) return ;;'
    options = '\n'.join(f"      {it.name}) words='{' '.join('--' + option.name for option in it.options)}' ;;" for it in program.commands.values())
    return BASH.format(names=names, values=values, options=options)


def zsh_quoted(text: str) -> str:
    return text.replace('\\', '\\\\').replace(':', '\\:').replace('[', '\\[').replace(']', '\\]').replace("'", "'\\''")


def zsh_options(command: Command) -> str:
    words = []
    for it in command.options:
        value = '' if not it.value else f':{it.value}:{"_files" if takes_file(it.name) else ""}'
        words.append(f"'--{it.name}[{zsh_quoted(it.help)}]{value}'")
    return f'    {command.name}) _arguments ' + ' '.join(["'1:command:'", *words]) + ' ;;'


def for_zsh(program: Program) -> str:
    commands = '\n'.join(f"    '{it.name}:{zsh_quoted(it.about)}'" for it in program.commands.values())
    return ZSH.format(commands=commands, options='\n'.join(zsh_options(it) for it in program.commands.values()))


def fish_quoted(text: str) -> str:
    return "'" + text.replace('\\', '\\\\').replace("'", "\\'") + "'"


def for_fish(program: Program) -> str:
    lines = ["# Completion of sortition in fish, made from the program's help.", 'complete -c sortition -n __fish_use_subcommand -f']
    for it in program.commands.values():
        lines.append(f'complete -c sortition -n __fish_use_subcommand -a {it.name} -d {fish_quoted(it.about)}')
    lines.append("complete -c sortition -n __fish_use_subcommand -a help -d 'Prints all commands, or the options of one'")
    lines.append(f"complete -c sortition -n '__fish_seen_subcommand_from help' -f -a {fish_quoted(' '.join(program.commands))}")
    for it in program.commands.values():
        for option in it.options:
            value = '' if not option.value else ' -r' if takes_file(option.name) else ' -x'
            lines.append(f"complete -c sortition -n '__fish_seen_subcommand_from {it.name}' -l {option.name}{value} -d {fish_quoted(option.help)}")
    return '\n'.join(lines) + '\n'


def files_of(program: Program) -> Dict[str, str]:
    """The files of the package that complete the program's words, by their place."""
    return {
        'share/bash-completion/completions/sortition': for_bash(program),
        'share/zsh/vendor-completions/_sortition': for_zsh(program),
        'share/fish/vendor_completions.d/sortition.fish': for_fish(program),
    }
