#!/usr/bin/env python3
"""Runs the commands that README.md shows, with the built program, and compares what they print: a line for each that prints
something else, and then the status 1.

A command is a line behind `$ `, and so are the lines behind one that ends with `|`; the lines up to the next command or to the
end of the block are what it prints on output and error. The commands run one after another in one shell, in a folder with the
example job and its config file. What `cat FILE` shows is the file, which is made before. `.. (N digits)` at the end of a line stands
for the rest of a line of so many.
"""
import os
import pathlib
import re
import subprocess
import sys
import tempfile

ROOT = pathlib.Path(__file__).resolve().parent.parent
CRATE = ROOT / "crates/firuvaik"
# Seconds after which the commands together count as ones that don't end.
MOST_SECONDS = 900


def shown_commands(page):
    """Each command of a page with the lines that it prints."""
    for block in re.findall(r"(?m)(?:^    .*\n|^\n(?=    ))+", page):
        lines = [line[4:] for line in block.splitlines()]
        while lines:
            line = lines.pop(0)
            if not line.startswith("$ "):
                continue
            command = line[2:]
            while command.endswith("|"):
                command += "\n" + lines.pop(0)
            printed = []
            while lines and not lines[0].startswith("$ "):
                printed.append(lines.pop(0))
            yield command, "\n".join(printed).rstrip("\n")


def lay_out(folder, commands):
    """Makes the files of the commands in the folder, which is their home too."""
    (folder / "stdin").write_bytes((CRATE / "stdin").read_bytes())
    (folder / "data").mkdir()
    (folder / "data/config").write_bytes((CRATE / "data/config").read_bytes())
    for command, printed in commands:
        shows = re.fullmatch(r"cat (?:~/)?([\w./]+)", command)
        if shows:
            path = folder / shows.group(1)
            path.parent.mkdir(exist_ok=True)
            path.write_text(printed + "\n")


def is_shown(line, found):
    """Whether a line of the page shows the line that was printed."""
    cut = re.fullmatch(r"(.*) \.\.\. \((\d+) digits\)", line)
    return found.startswith(cut.group(1)) and len(found) == int(cut.group(2)) if cut else found == line


def main():
    program = CRATE / "out/firuvaik"
    if not os.access(program, os.X_OK):
        sys.exit(f"checks/readme.py: {program} isn't built")
    commands = list(shown_commands((ROOT / "README.md").read_text()))
    failed = False
    with tempfile.TemporaryDirectory() as name:
        folder = pathlib.Path(name)
        lay_out(folder, commands)
        script = "".join(f"{{ {command}\n}} > {number}.printed 2>&1\n" for number, (command, _) in enumerate(commands))
        env = {"HOME": name, "PATH": f"{program.parent}:{os.environ['PATH']}"}
        subprocess.run(["bash", "-c", script], cwd=folder, env=env, timeout=MOST_SECONDS)
        for number, (command, printed) in enumerate(commands):
            found = (folder / f"{number}.printed").read_text().rstrip("\n").split("\n")
            lines = printed.split("\n")
            if len(found) != len(lines) or not all(map(is_shown, lines, found)):
                print(f"README.md: this prints something else: {command.splitlines()[0]}")
                failed = True
    if not commands:
        print("README.md: no command is shown")
    return 1 if failed or not commands else 0


if __name__ == "__main__":
    sys.exit(main())
