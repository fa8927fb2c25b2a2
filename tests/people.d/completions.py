#!/usr/bin/env python3
"""Tries the completions in a real bash, and in a real zsh where there is one."""
import os
import re
import shutil
import sys

from trial import TOOLS, Trial, main

BASH_FILE = os.path.join(TOOLS, "completions", "bnc.bash")
ZSH_FOLDER = os.path.join(TOOLS, "completions")
# The line that is typed up to the cursor, and what has to be offered, in order.
LINES = [
    ("bnc ", "drill resume show solve"),
    ("bnc s", "show solve"),
    ("bnc solve --", "--cuts --nodes --upper --workers"),
    ("bnc solve --nodes 5 --", "--cuts --upper --workers"),
    ("bnc solve --nodes ", ""),
    ("bnc resume --u", ""),
    ("bnc show mo", "model.mps"),
    ("bnc solve mo", "model.mps"),
    ("bnc drill ", ""),
    ("bnc-convert --format ", "lp mps opb"),
    ("bnc-convert mo", "model.mps"),
    ("bnc-watch --e", "--every"),
]
# A session of zsh takes a second, so it is tried on these alone.
IN_ZSH = ("bnc ", "bnc solve --nodes 5 --", "bnc show mo", "bnc-convert --format ", "bnc-watch --e")

def bash_offers(trial: Trial, line: str) -> list[str]:
    """What bash offers for a line, sorted."""
    words = line.split(" ")
    script = f"""
source {BASH_FILE}
compopt() {{ :; }}
COMP_WORDS=({" ".join(f"'{word}'" for word in words)}) COMP_CWORD={len(words) - 1} COMP_LINE='{line}' COMP_POINT={len(line)}
found=$(complete -p {words[0]}) || exit 1
[[ $found == *'-F _bnc '* ]] || exit 1
_bnc {words[0]} '{words[-1]}' '{words[-2]}'
printf '%s\\n' "${{COMPREPLY[@]}}"
"""
    ran = trial.run("bash", "--norc", "-c", script)
    return sorted(ran.out.split()) if not ran.status and not ran.err else [f"status {ran.status}", ran.err]


def in_bash(trial: Trial) -> None:
    for line, offers in LINES:
        trial.equal(f"bash: {line!r}", " ".join(bash_offers(trial, line)), offers)
    for tool in ("bnc-check", "bnc-solution", "bnc-report", "bnc-watch", "bnc-convert"):
        path = os.path.join(TOOLS, tool)
        if not os.path.exists(path):
            trial.skip(f"bash: the options of {tool}", "the tool isn't there")
            continue
        told = sorted(set(re.findall(r"--[a-z]+", trial.run(path, "--help").out.split("exit status")[0])) - {"--"})
        trial.equal(f"bash: the options of {tool} are those of its help", bash_offers(trial, f"{tool} --"), told)


def in_zsh(trial: Trial) -> None:
    if not shutil.which("zsh"):
        trial.skip("zsh", "apt-get install zsh")
        return
    for line, offers in LINES:
        if line in IN_ZSH:
            found = zsh_offers(trial, line)
            trial.need(f"zsh: {line!r}", all(word in found for word in offers.split()), found)


def zsh_offers(trial: Trial, line: str) -> str:
    """What zsh lists for a line, in a terminal of its own."""
    script = f"""
zmodload zsh/zpty
zpty -b z 'TERM=dumb zsh -f -i'
zpty -w z "PS1= RPS1= ; fpath=({ZSH_FOLDER} \\$fpath); autoload -Uz compinit; compinit -u -D; setopt no_beep; bindkey '^I' list-choices; print READ''Y"
repeat 200; do zpty -r -t z text && all+=$text; [[ $all == *READY* ]] && break; sleep 0.05; done
zpty -w -n z $'{line}\\t'
all= ; quiet=0
repeat 60; do if zpty -r -t z text; then all+=$text; quiet=0; else ((++quiet > 12)) && break; fi; sleep 0.05; done
zpty -d z
print -r -- $all
"""
    return trial.run("zsh", "-f", "-c", script).out


def cases(trial: Trial) -> None:
    trial.write("model.mps", "NAME\n")
    in_bash(trial)
    in_zsh(trial)


if __name__ == "__main__":
    main(cases)
