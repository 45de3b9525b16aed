#!/usr/bin/env python3
"""Makes docs/completions/cilk.bash and cilk.zsh of the usages that the help of the program shows.

completions.py            says whether the two are those of the help; its status is 0 where they are
completions.py --write    writes them
"""

import os
import re
import sys

from man_page import SOURCE, TOP

BASH = """# Completions of `cilk` for bash, by tools/completions.py: `. docs/completions/cilk.bash` in ~/.bashrc
_cilk() {{
    local word=${{COMP_WORDS[COMP_CWORD]}} words= files=-f
    case $COMP_CWORD:${{COMP_WORDS[1]}}:${{COMP_WORDS[COMP_CWORD - 1]}} in
        1:*) words="{commands} help --help --version" files= ;;
        2:help:*) words="{commands}" files= ;;
        *:--input | *:--on | *:--sites) ;;
        *:--workers | *:--helpers | *:--why | *:--fix | *:explain:*) files= ;;
{cases}
    esac
    [ -n "$files" ] && [ "${{word#-}}" = "$word" ] && words=
    mapfile -t COMPREPLY < <(compgen $files -W "$words" -- "$word")
}}
complete -o filenames -F _cilk cilk
"""
ZSH = """#compdef cilk
# Completions of `cilk` for zsh, by tools/completions.py: `. docs/completions/cilk.zsh` in ~/.zshrc, after compinit
_cilk() {{
    local words_of=
    case $CURRENT:$words[2]:$words[CURRENT-1] in
        2:*) compadd -- {commands} help --help --version; return ;;
        3:help:*) compadd -- {commands}; return ;;
        *:--input | *:--on | *:--sites) _files; return ;;
        *:--workers | *:--helpers | *:--why | *:--fix | *:explain:*) return ;;
{cases}
    esac
    [[ $PREFIX == -* ]] && compadd -- ${{=words_of}} || _files
}}
compdef _cilk cilk
"""


def made(source):
    """The two texts, of the lines `Usage: cilk COMMAND .. [--OPTION ..]`."""
    usages = dict(re.findall(r"\nUsage: cilk ([a-z]+) ([^\n]*)\n", source))
    usages_of_files = {name: text for name, text in usages.items() if re.match("PROGRAM|TRACE", text)}
    options = {name: " ".join([*re.findall(r"--[a-z]+", text), "--color", "--help"]) for name, text in usages_of_files.items()}
    texts = {}
    for end, form, variable in (("bash", BASH, "words"), ("zsh", ZSH, "words_of")):
        cases = "\n".join(f'        *:{name}:*) {variable}="{words}" ;;' for name, words in options.items())
        texts[f"{TOP}/docs/completions/cilk.{end}"] = form.format(commands=" ".join(usages), cases=cases)
    return texts


def main():
    with open(SOURCE, encoding="utf-8") as file:
        texts = made(file.read())
    wrong = 0
    for path, text in texts.items():
        if sys.argv[1:] == ["--write"]:
            with open(path, "w", encoding="utf-8") as file:
                file.write(text)
        elif not os.path.exists(path) or open(path, encoding="utf-8").read() != text:
            print(f"{os.path.relpath(path, TOP)} isn't that of the help: tools/completions.py --write makes it")
            wrong = 1
    return wrong


if __name__ == "__main__":
    sys.exit(main())
