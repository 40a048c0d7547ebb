"""Asks each shell what it completes."""
import os
import pty
import select
import shutil
import subprocess
import time

BASH = """
. /usr/share/bash-completion/bash_completion
. "$1"
compopt() { :; }
shift
COMP_WORDS=("$@") COMP_CWORD=$(($# - 1)) COMP_LINE="$*" COMP_POINT=${#COMP_LINE} COMP_TYPE=9
_fillcsv
printf '%s\\n' "${COMPREPLY[@]}"
"""
# Each word that is offered is written to a file, beside what the shell does with it. The shell says when it listens to keys;
# the key behind Tab is read once all is completed, and says so.
ZSH = """autoload -Uz compinit; compinit -u -D
compdef _fillcsv fillcsv
compadd() {
    local -a offered
    builtin compadd -A offered "$@"
    print -rl -- "${(@)offered}" >>$TOLD
    builtin compadd "$@"
}
listens() { print -r -- ready }
completed() { : >$TOLD.completed }
zle -N zle-line-init listens
zle -N completed
bindkey '^G' completed
PROMPT=''
"""
HAS_BASH = shutil.which("bash") is not None and os.path.exists("/usr/share/bash-completion/bash_completion")


def bash(script, words, folder):
    """What bash completes for the last word."""
    how = {"cwd": folder, "stdin": subprocess.DEVNULL, "stdout": subprocess.PIPE, "text": True, "timeout": 300, "check": True}
    told = subprocess.run(["bash", "--norc", "-c", BASH, "bash", script, *words], **how).stdout
    return told.split("\n")[:-1] if told.strip() else []


def fish(script, words, folder):
    """What fish completes for the last word."""
    line = " ".join(words)
    how = {"cwd": folder, "stdin": subprocess.DEVNULL, "stdout": subprocess.PIPE, "text": True, "timeout": 300, "check": True}
    how["env"] = {**os.environ, "HOME": folder, "XDG_CONFIG_HOME": f"{folder}/config"}
    told = subprocess.run(["fish", "--no-config", "-c", f'source {script}; complete -C "{line}"'], **how).stdout
    return [it.partition("\t")[0] for it in told.splitlines()]


def zsh(script, words, folder):
    """What zsh completes for the last word: it is typed to a shell at a terminal of its own."""
    told, completed = f"{folder}/told", f"{folder}/told.completed"
    with open(f"{folder}/.zshrc", "w", encoding="utf-8") as file:
        file.write(f"fpath=({os.path.dirname(script)} $fpath)\n{ZSH}")
    with open(told, "w", encoding="utf-8"):
        pass
    if os.path.exists(completed):
        os.remove(completed)
    terminal, end = pty.openpty()
    env = {**os.environ, "ZDOTDIR": folder, "HOME": folder, "TOLD": told, "TERM": "dumb"}
    shell = subprocess.Popen(["zsh", "-i"], cwd=folder, stdin=end, stdout=end, stderr=end, env=env, start_new_session=True)
    os.close(end)
    try:
        seen, until, is_typed = b"", time.monotonic() + 300, False
        while not os.path.exists(completed):
            if time.monotonic() > until:
                raise TimeoutError(f"zsh has not ended to complete within five minutes: {seen[-500:]!r}")
            if select.select([terminal], [], [], 0.1)[0]:
                seen += os.read(terminal, 4096)
            if not is_typed and b"ready" in seen:
                os.write(terminal, (" ".join(words) + "\t\x07").encode())
                is_typed = True
        with open(told, encoding="utf-8") as file:
            return [it for it in file.read().split("\n")[:-1] if it]
    finally:
        shell.kill()
        shell.wait()
        os.close(terminal)
