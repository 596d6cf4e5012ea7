#!/usr/bin/env python3
"""words.py [--check [--program FILE]]: makes the manual page and the completions of share/ from share/words.json.

With --check nothing is written: it says where what stands in share/ isn't what share/words.json gives, and where that lacks
a command, an option, a status or a rule that the program has by its code (crates/msc_requests/src/commands.rt, crates/msc_rules) and
by its rows (crates/msc_rows/stdin). The built program, where there is one, is asked too: each command with each of its options is
a request, and with another it is none. The manual page is checked by mandoc or man, and the completions by their shells, where these are installed. It ends with status 1 where something is wrong.
"""
import json
import os
import re
import shutil
import subprocess
import sys
import tempfile

WORDS = "share/words.json"
PROGRAM = "crates/mscjudge/out/mscjudge"
MADE = "made by tools/words.py from share/words.json"


def roff(text):
    """A text as roff has it."""
    text = text.replace("\\", "\\e").replace("-", "\\-")
    return re.sub(r"^([.'])", r"\\&\1", text, flags=re.M)


def bare(option):
    """An option without its value."""
    return option.split()[0]


def marked(option):
    """An option as roff has it, with its value as a name."""
    name, *value = option.split()
    return "\\fB" + roff(name) + "\\fR" + "".join(f" \\fI{one}\\fR" for one in value)


def manual(words):
    """The manual page."""
    lines = [f'.\\" {MADE}', f".TH MSCJUDGE 1 {words['date']} mscjudge", ".SH NAME", f"mscjudge \\- {roff(words['summary'])}", ".SH SYNOPSIS"]
    for command in words["commands"]:
        options = "".join(f" [{marked(option)}]" for option in command["options"])
        names = " ".join(re.sub(r"(\w+)", r"\\fI\1\\fR", name) for name in command["takes"])
        lines += [f".B mscjudge {command['name']}", names + options, ".br"]
    lines[-1:] = [".SH DESCRIPTION"]
    for paragraph in words["description"]:
        lines += [roff(paragraph), ".PP"]
    lines[-1:] = [".SH COMMANDS"]
    for command in words["commands"]:
        lines += [".TP", f".B {command['name']} {' '.join(command['takes'])}", roff(command["does"])]
    lines += [".SH OPTIONS"]
    for option, does in words["options"].items():
        lines += [".TP", f".B {roff(option)}", roff(does)]
    lines += [".SH NAMES"]
    for name, means in words["names"].items():
        lines += [".TP", f".I {name}", roff(means)]
    lines += [".SH EXIT STATUS"]
    for row in words["statuses"]:
        printed = "; ".join(f"\\(lq{roff(text)}\\(rq" for text in row["prints"])
        lines += [".TP", f".B {row['status']}", roff(row["means"]) + (f". Printed: {printed}" if printed else "")]
    lines += [".SH DIAGNOSTICS", "RULE, in the order in which the rules are looked at, is one of:"]
    lines += [text for rule in words["rules"] for text in (".br", f"\\(lq{roff(rule)}\\(rq")]
    lines += [".PP", "FAULT is one of: " + ", ".join(f"\\(lq{roff(fault)}\\(rq" for fault in words["faults"]) + "."]
    example = words["example"]
    lines += [".SH EXAMPLES", "With the document a.msc", ".PP", ".nf", roff(example["document"]), ".fi", ".PP", "and the log a.log", ".PP",
              ".nf", roff(example["log"]), ".fi", ".PP", f"the words \\fBmscjudge {roff(example['words'])}\\fR print \\(lq{roff(example['prints'])}\\(rq."]
    return "\n".join(lines) + "\n"


def options_of(words):
    return {command["name"]: " ".join(map(bare, command["options"])) for command in words["commands"]}


def bash(words):
    """The completion for bash."""
    names, options = " ".join(options_of(words)), options_of(words)
    cases = "\n".join(f'        {name}) [[ $word == -* ]] && words="{given}" ;;' for name, given in options.items())
    return f"""# {MADE}
_mscjudge() {{
    local word=${{COMP_WORDS[COMP_CWORD]}} words=""
    if [ "$COMP_CWORD" -eq 1 ]; then
        COMPREPLY=($(compgen -W "{names}" -- "$word"))
        return
    fi
    case ${{COMP_WORDS[1]}} in
{cases}
    esac
    if [ -n "$words" ]; then
        COMPREPLY=($(compgen -W "$words" -- "$word"))
    else
        COMPREPLY=($(compgen -f -- "$word"))
    fi
}}
complete -o filenames -F _mscjudge mscjudge
"""


def zsh_option(option):
    """An option as zsh's _arguments has it, up to what it does."""
    return bare(option) + ("=" if bare(option) != option else "")


def zsh_value(option):
    """And its value."""
    return "".join(f":{value}:" for value in option.split()[1:])


def zsh(words):
    """The completion for zsh."""
    names = "\n".join(f"        '{command['name']}:{command['does']}'" for command in words["commands"])
    cases = []
    for command in words["commands"]:
        given = " ".join(f"'{zsh_option(option)}[{words['options'][option]}]{zsh_value(option)}'" for option in command["options"])
        takes = " ".join(f"':{name.strip('[]')}:{'_files' if name in ('DOC', 'LOG') else ''}'".replace(":'", ": '") for name in command["takes"])
        takes = takes.replace("':CHART", "'::CHART") if "[CHART]" in command["takes"] else takes
        cases.append(f"        {command['name']}) _arguments {' '.join(part for part in (given, takes) if part)} ;;")
    return f"""#compdef mscjudge
# {MADE}
_mscjudge() {{
    local -a commands=(
{names}
    )
    if (( CURRENT == 2 )); then
        _describe command commands
        return
    fi
    shift words
    (( CURRENT-- ))
    case $words[1] in
{chr(10).join(cases)}
    esac
}}
_mscjudge "$@"
"""


def fish(words):
    """The completion for fish."""
    lines = [f"# {MADE}"]
    for command in words["commands"]:
        lines.append(f"complete -c mscjudge -f -n __fish_use_subcommand -a {command['name']} -d '{command['does']}'")
    for command in words["commands"]:
        for option in command["options"]:
            lines.append(f"complete -c mscjudge -n '__fish_seen_subcommand_from {command['name']}' -l {bare(option)[2:]}{' -x' if bare(option) != option else ''} -d '{words['options'][option]}'")
    return "\n".join(lines) + "\n"


FILES = {"share/mscjudge.1": manual, "share/mscjudge.bash": bash, "share/_mscjudge": zsh, "share/mscjudge.fish": fish}


def of_code(words):
    """What share/words.json has otherwise than the code of the command and the table of rules."""
    code = open("crates/msc_requests/src/commands.rt").read()
    had = {}
    for name, body in re.findall(r'bare_command\(alloc, "(\w+)"\);(.*?)\n\}', code, re.S):
        takes = [(f"[{word}]" if kind == "optional" else word) for kind, word in re.findall(r'with_(wanted|optional)\(alloc, command, "(\w+)"', body)]
        had[name] = (takes, ["--" + word + (" N" if kind == "valued" else "") for kind, word in re.findall(r'with_(flag|valued)\(alloc, command, "([\w-]+)"', body)])
    short = {"DOC": "document", "CHART": "chart", "LOG": "log", "[CHART]": "[chart]", "TURNS": "turns", "SEED": "seed"}
    told = {command["name"]: ([short[name] for name in command["takes"]], command["options"]) for command in words["commands"]}
    if had != told:
        yield f"the commands by the code are {had}, and here {told}"
    if set(words["options"]) != {option for command in words["commands"] for option in command["options"]}:
        yield "the options aren't those of the commands"
    linked = re.findall(r"^\| \d+ [^|]*\| \d+ \| \[`([^`]*)`", open("docs/RULES.md").read(), re.M)
    if linked != words["rules"]:
        yield f"the rules that are told are by docs/RULES.md {linked}"
    faults = re.findall(r'codes "([^"]+)"', open("crates/event_log/specs/Faults.antt").read())
    if faults != words["faults"]:
        yield f"the faults of logs are by the code {faults}"


def of_rows(words):
    """What the rows of crates/msc_rows answer that share/words.json lacks."""
    rows = open("crates/msc_rows/stdin").read()
    # want of memory is no row: it is the status of `main` where the words can't be taken
    main_code = open("crates/mscjudge/src/main.rt").read()
    statuses = {int(number) for number in re.findall(r"^= (\d+)", rows, re.M) + re.findall(r"ExitCode::from\((\d+)\)", main_code)}
    known = {row["status"] for row in words["statuses"]}
    if statuses - known or known - statuses:
        yield f"the statuses of the rows are {sorted(statuses)}, and here {sorted(known)}"
    for number, line in re.findall(r"^= (\d+) (?![{\\])(.+)", rows, re.M):
        texts = [text for row in words["statuses"] if row["status"] == int(number) for text in row["prints"]]
        shapes = [re.sub(r"\\?\b(RULE|FAULT|KEY|VERDICT|[NKL]|LINE|COLUMN)\b", r".+", re.escape(text)) for text in texts]
        if int(number) not in (0, 8, 9) and not any(re.match(shape, line) for shape in shapes):
            yield f"a row answers {number} with `{line}`, which isn't among {texts}"


def of_program(words, program):
    """What the program answers otherwise."""
    with tempfile.TemporaryDirectory(prefix="words-") as room:
        example = words["example"]
        for name, text in (("a.msc", example["document"]), ("a.log", example["log"])):
            with open(f"{room}/{name}", "w") as it:
                it.write(text + "\n")

        def ran(given):
            result = subprocess.run([program, *given], cwd=room, stdout=subprocess.PIPE, errors="replace")
            return result.returncode, result.stdout
        if ran(example["words"].split()) != (0, example["prints"] + "\n"):
            yield "the example doesn't print what it is said to"
        for command in words["commands"]:
            values = {"DOC": "a.msc", "CHART": "A", "LOG": "a.log", "TURNS": "2", "SEED": "7"}
            given = [command["name"], *(values[name.strip("[]")] for name in command["takes"])]
            for option in command["options"]:
                if ran([*given, *option.replace(" N", " 5").split()])[0] == 2:
                    yield f"{' '.join(given)} {option} is no request"
            for option in ("--help", "--version", *(option for option in words["options"] if option not in command["options"])):
                if ran([*given, *option.replace(" N", " 5").split()]) != (2, words["usage"] + "\n"):
                    yield f"{' '.join(given)} {option} is a request"
        for given in ([], ["help"], ["--help"]):
            if ran(given) != (2, words["usage"] + "\n"):
                yield f"{given} is a request"


def of_readme(words):
    """What the README's tables lack."""
    page = open("README.md").read()
    for command in words["commands"]:
        shown = " ".join([command["name"], *command["takes"], *(f"[{option}]" for option in command["options"])])
        if f"| `{shown}` |" not in page:
            yield f"README.md: no `{shown}`"
    for row in words["statuses"]:
        rows = re.findall(rf"^\| {row['status']} \|(.*)", page, re.M)
        for text in row["prints"]:
            if not any(text in line for line in rows):
                yield f"README.md: status {row['status']} has no `{text}`"


def of_shells(words, room):
    """What the completions offer behind the program's name and behind `judge -`, where their shells are installed."""
    wanted = {"mscjudge ": {command["name"] for command in words["commands"]}, "mscjudge judge -": set(map(bare, words["options"]))}
    for line, offers in wanted.items():
        parts = " ".join(f"'{part}'" for part in line.split(" "))
        by_bash = f"source share/mscjudge.bash; COMP_WORDS=({parts}); COMP_CWORD=$((${{#COMP_WORDS[@]}} - 1)); _mscjudge; printf '%s\\n' \"${{COMPREPLY[@]}}\""
        by_fish = f"source share/mscjudge.fish; complete -C '{line}'"
        for shell, text in (("bash", by_bash), ("fish", by_fish)):
            if shutil.which(shell):
                ran = subprocess.run([shell, "-c", text], stdout=subprocess.PIPE, stderr=subprocess.DEVNULL, errors="replace", env=environment(room))
                had = {row.split("\t")[0] for row in ran.stdout.splitlines()}
                if had != offers:
                    yield f"{shell} offers {sorted(had)} behind `{line}`, and not {sorted(offers)}"


def environment(room):
    """What the tools see: nothing of the user's own settings."""
    return {"PATH": os.environ.get("PATH", "/usr/bin:/bin"), "HOME": room, "MANWIDTH": "100", "LC_ALL": "C.UTF-8"}


def of_tools(room):
    """What mandoc or man, and the shells, say of the files."""
    checks = [("mandoc", ["mandoc", "-T", "lint", "-W", "warning", "share/mscjudge.1"]),
              ("man", ["man", "--warnings=w", "-E", "UTF-8", "-l", "-Tutf8", "share/mscjudge.1"]),
              ("bash", ["bash", "-n", "share/mscjudge.bash"]), ("zsh", ["zsh", "-n", "share/_mscjudge"]),
              ("fish", ["fish", "-n", "share/mscjudge.fish"])]
    for tool, words in checks:
        if not shutil.which(tool):
            print(f"share/: NOT CHECKED by {tool}, which isn't installed here")
            continue
        ran = subprocess.run(words, stdout=subprocess.PIPE, stderr=subprocess.PIPE, errors="replace", env=environment(room))
        said = ran.stderr + (ran.stdout if tool == "mandoc" else "")
        if ran.returncode or said.strip():
            yield f"{' '.join(words)}: {said.strip() or ran.returncode}"


def main(given):
    words = json.load(open(WORDS))
    if "--check" not in given:
        for path, make in FILES.items():
            with open(path, "w") as it:
                it.write(make(words))
        return 0
    program = given[given.index("--program") + 1] if "--program" in given else PROGRAM
    found = [f"{path} isn't what {WORDS} gives: run tools/words.py" for path, make in FILES.items() if open(path).read() != make(words)]
    found += [*of_code(words), *of_rows(words), *of_readme(words)]
    with tempfile.TemporaryDirectory(prefix="words-") as room:
        found += [*of_tools(room), *of_shells(words, room)]
    if os.path.isfile(program):
        found += list(of_program(words, os.path.abspath(program)))
    else:
        print(f"share/: NOT CHECKED by the program, as there is no {program}")
    print("\n".join(found) or "the manual page and the completions have the program's words and statuses")
    return 1 if found else 0


if __name__ == "__main__":
    sys.exit(main(sys.argv[1:]))
