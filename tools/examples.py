#!/usr/bin/env python3
"""examples.py [--program FILE] [--rt] [PAGE..]: runs the commands that the pages show, and compares what they print.

In a block that begins with ```console each line `$ COMMAND` is run by bash, and the lines behind it are what it is to print, on
standard output and standard error together; a command goes on in the next line behind a `\\`. The commands of a page run one after
another in a copy of the repository's files, whose `mscjudge` is the built program. In docs/RULES.md and docs/USER_GUIDE.md each block that begins
with ```msc, and has a line `document refused at ..` in backquotes behind it, is a document of which `mscjudge check` is to say so.

A command that asks for a tool that isn't installed is told and left out, with the rest of its block; that is no failure. Commands
of `rt`, and ./build, take long, and are run only with --rt, in the repository itself. Run it at the top, after `rt ci`, or
after `rt run` in crates/mscjudge. It ends with status 1 where something differs.
"""
import os
import re
import shutil
import subprocess
import sys
import tempfile

PAGES = ["README.md", "docs/USER_GUIDE.md", "docs/LOGS.md", "docs/RULES.md", "examples/phone_call/README.md", "examples/dhcp_lease/README.md",
         "examples/keep_alive/README.md", "examples/mail_delivery/README.md", "examples/web_gateway/README.md",
         "examples/web_shop/README.md", "examples/transport_connection/README.md", "examples/file_transfer/README.md",
         "examples/mail_session/README.md", "examples/sliding_window/README.md"]
PROGRAM = "crates/mscjudge/out/mscjudge"
# what a command may ask for, and the package of Debian that has it
TOOLS = {"jq": "jq", "mlr": "miller", "tshark": "tshark", "parallel": "parallel", "man": "man-db", "mandoc": "mandoc",
         "zsh": "zsh", "fish": "fish"}
# A tool counts as installed only where this call of it succeeds: other versions, or other tools, have these names too.
PROBES = {"mlr": ["mlr", "-n", "--ojsonl", "put", ""], "parallel": ["parallel", "--version"]}
# what programs say beside their output where they are run as root
NOISE = re.compile(r"^Running as user \"root\".*\n", re.M)
MARK = "-- end of command --"
# the seconds that a block may take
LIMIT = 1800
# Such lines stand for any number of lines.
ANY = "..."


def blocks(text, kind):
    """The blocks of a kind, each with the number of its first line and the text behind it."""
    for found in re.finditer(rf"^```{kind}\n(.*?)^```$", text, re.M | re.S):
        yield text[:found.start()].count("\n") + 2, found[1], text[found.end():]


def commands(block, first):
    """The commands of a block: each with its line, its text and the lines that it is to print."""
    found, lines = [], block.splitlines()
    for number, line in enumerate(lines):
        if found and found[-1][1].endswith("\\"):
            found[-1][1] += "\n" + line
        elif line.startswith("$ "):
            found.append([first + number, line[2:], []])
        elif found:
            found[-1][2].append(line)
    return found


def is_matched(wanted, had):
    """Whether the lines are those that are wanted, in which ANY stands for any lines."""
    shape = "".join("(?:.*\n)*" if line == ANY else re.escape(line) + "\n" for line in wanted)
    return bool(re.fullmatch(shape, "".join(line + "\n" for line in had)))


def is_there(tool):
    if not shutil.which(tool):
        return False
    quiet = {"stdin": subprocess.DEVNULL, "stdout": subprocess.DEVNULL, "stderr": subprocess.DEVNULL}
    return tool not in PROBES or subprocess.run(PROBES[tool], **quiet).returncode == 0


def lacking(texts):
    """The tools that the commands ask for and that aren't installed."""
    words = {word for text in texts for word in re.findall(r"(?:^|[|;&(]|\$\()\s*(?:time )?(\w+)", text, re.M)}
    return sorted(tool for tool in TOOLS if tool in words and not is_there(tool))


def environment(room):
    path = f"{room}/bin:{room}/home/.local/bin:{os.environ.get('PATH', '/usr/bin:/bin')}"
    return {"LC_ALL": "C.UTF-8", "PATH": path, "HOME": f"{room}/home", "MANPAGER": "cat", "MANWIDTH": "80"}


def run(found, folder, room):
    """What each of the commands printed. They run in one shell, so that `$?` is the status of the command before."""
    script = "".join(f"{text}\n__=$?; printf '\\n{MARK}\\n'; (exit $__)\n" for _, text, _ in found)
    ran = subprocess.run(["bash", "-c", script], cwd=folder, env=environment(room), stdin=subprocess.DEVNULL,
                         stdout=subprocess.PIPE, stderr=subprocess.STDOUT, errors="replace", timeout=LIMIT)
    parts = NOISE.sub("", ran.stdout).split(f"\n{MARK}\n")
    return [part.splitlines() for part in parts[:-1]] + [["(the shell ended)"]] * (len(found) - len(parts) + 1)


def furnish(room, program):
    """Copies what the commands of a page may name, and puts the program where a shell finds it."""
    for folder in ("bin", "home", "top"):
        os.mkdir(f"{room}/{folder}")
    shown = shutil.ignore_patterns("out", "__pycache__")
    for name in os.listdir("."):
        if os.path.isfile(name):
            shutil.copy(name, f"{room}/top/{name}")
        elif name not in (".git", ".ci", "crates"):
            shutil.copytree(name, f"{room}/top/{name}", ignore=shown)
    shutil.copytree("crates/mscjudge", f"{room}/top/crates/mscjudge", ignore=shown)
    os.makedirs(f"{room}/top/{os.path.dirname(PROGRAM)}", exist_ok=True)
    shutil.copy(program, f"{room}/top/{PROGRAM}")
    shutil.copy(program, f"{room}/bin/mscjudge")


def of_console(page, text, room, with_rt):
    """Runs the commands of a page; yields a pair of counts (run, left out) or what differs, as a text."""
    for first, block, _ in blocks(text, "console"):
        found = commands(block, first)
        texts = [command for _, command, _ in found]
        asks_rt = any(re.search(r"\brt (try|run|ci|check)\b|^\./build", text) for text in texts)
        missing = lacking(texts)
        if missing or (asks_rt and not with_rt):
            why = f"no {', '.join(f'{tool} (package {TOOLS[tool]})' for tool in missing)} here" if missing else "rt is run with --rt alone"
            print(f"{page}:{first}: NOT RUN, {why}: {len(found)} commands from `{texts[0].splitlines()[0]}` on")
            yield 0, len(found)
            continue
        for (line, command, wanted), had in zip(found, run(found, "." if asks_rt else f"{room}/top", room)):
            if is_matched(wanted, had):
                yield 1, 0
            else:
                yield f"{page}:{line}: `{command}` is shown to print\n  " + "\n  ".join(wanted) + "\nand printed\n  " + "\n  ".join(had)


def of_documents(page, text, room):
    """Checks the documents of a page that are shown with their refusal."""
    for first, block, behind in blocks(text, "msc"):
        told = re.match(r"\s*[^\n`]*`(document refused at [^`\n]+)`", behind)
        if not told:
            continue
        with open(f"{room}/document.msc", "w") as it:
            it.write(block)
        ran = subprocess.run([f"{room}/bin/mscjudge", "check", f"{room}/document.msc"], stdout=subprocess.PIPE, errors="replace")
        if (ran.stdout, ran.returncode) == (told[1] + "\n", 4):
            yield 1, 0
        else:
            yield f"{page}:{first}: the document is shown to give `{told[1]}`, and gives status {ran.returncode}, `{ran.stdout.strip()}`"


def main(words):
    with_rt = "--rt" in words
    program = words[words.index("--program") + 1] if "--program" in words else PROGRAM
    pages = [word for word in words if word.endswith(".md")] or PAGES
    if not os.path.isfile(program):
        print(f"no program {program}: `rt ci` or `rt run` in crates/mscjudge makes it")
        return 1
    ran = left = 0
    bad = []
    for page in pages:
        text = open(page).read()
        with tempfile.TemporaryDirectory(prefix="examples-") as room:
            furnish(room, os.path.abspath(program))
            for result in [*of_console(page, text, room, with_rt), *of_documents(page, text, room)]:
                if isinstance(result, str):
                    bad.append(result)
                else:
                    ran, left = ran + result[0], left + result[1]
    print(*bad, sep="\n", end="\n" if bad else "")
    print(f"examples of the pages: {ran} as shown, {len(bad)} differ, {left} not run")
    return 1 if bad else 0


if __name__ == "__main__":
    sys.exit(main(sys.argv[1:]))
