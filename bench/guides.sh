#!/usr/bin/env bash
# Runs each command of the guides in docs/guides with the built program, in a folder that goes away, and compares what it prints
# with what the guide shows. Prints `N of N as shown`; where something differs it prints both, and then the status is 1:
#     bench/guides.sh [PROGRAM]        crates/dispatch/out/dispatch, where it is left out
# A block `sh` of a guide is run as it stands, all blocks of a guide in one shell. The block `text` behind it is what the shell
# prints then, within a minute. There `..` stands for anything: in a line of its own for any lines, in a line for any text.
# Build first: (cd crates/dispatch && rt run -- solve ../../examples/delay.json)
set -eu
top=$(cd "$(dirname "$0")/.." && pwd)
program=$(realpath -m "${1:-$top/crates/dispatch/out/dispatch}")
cd "$top"
[ -x "$program" ] || { echo "no $program: build it first"; exit 1; }
python3 - "$program" docs/guides/*.md <<'PYTHON'
import os, queue, re, shutil, subprocess, sys, tempfile, threading, time

SECONDS = 60
END = "-- end of a block --"


def blocks_of(guide):
    """Each block of commands, and the lines that it prints (none where no block `text` stands behind it)."""
    with open(guide) as file:
        fenced = re.findall(r"^```(\w*)\n(.*?)^```$", file.read(), re.M | re.S)
    blocks = []
    for word, text in fenced:
        if word == "sh":
            blocks.append((text, []))
        elif word == "text" and blocks and not blocks[-1][1]:
            blocks[-1][1].extend(text.splitlines())
    return blocks


def is_line(shown, printed):
    """The line is the one that is shown, where `..` stands for any text."""
    return re.fullmatch(".*".join(re.escape(part) for part in shown.split("..")), printed) is not None


def are_lines(shown, printed):
    """The lines are those that are shown, where `..` stands for any lines."""
    if not shown:
        return not printed
    if shown[0] == "..":
        return any(are_lines(shown[1:], printed[k:]) for k in range(len(printed) + 1))
    return bool(printed) and is_line(shown[0], printed[0]) and are_lines(shown[1:], printed[1:])


class Shell:
    """A shell at the top of a folder, and the lines that it and what it starts print."""

    def __init__(self, folder):
        both = {"stdout": subprocess.PIPE, "stderr": subprocess.STDOUT}
        self.running = subprocess.Popen(["bash"], cwd=folder, stdin=subprocess.PIPE, text=True, **both)
        self.lines = queue.Queue()
        threading.Thread(target=self.read, daemon=True).start()

    def read(self):
        for line in self.running.stdout:
            self.lines.put(line.rstrip("\n"))

    def run(self, commands, shown):
        """Runs the commands, and gives what is printed until it is what is shown, or the time is over."""
        self.running.stdin.write(f"{commands}echo '{END}'\n")
        self.running.stdin.flush()
        until, ended, printed = time.time() + SECONDS, False, []
        while not ended or not are_lines(shown, printed):
            try:
                line = self.lines.get(timeout=max(0, until - time.time()))
            except queue.Empty:
                break
            if line == END:
                ended = True
            else:
                printed.append(line)
        return printed if ended else printed + ["(not ended)"]

    def end(self):
        self.running.stdin.close()
        try:
            self.running.wait(timeout=SECONDS)
        except subprocess.TimeoutExpired:
            self.running.kill()


def lay_out(folder, program):
    """What the guides need of the top of the repository: the examples, the crates, and the program."""
    shutil.copytree("examples", f"{folder}/examples")
    os.makedirs(f"{folder}/crates/dispatch/out")
    os.symlink(program, f"{folder}/crates/dispatch/out/dispatch")
    for crate in os.listdir("crates"):
        if crate != "dispatch":
            os.symlink(os.path.abspath(f"crates/{crate}"), f"{folder}/crates/{crate}")


def try_guide(program, guide):
    """How many blocks of the guide print what it shows, and how many there are."""
    right, blocks = 0, blocks_of(guide)
    with tempfile.TemporaryDirectory() as folder:
        lay_out(folder, program)
        shell = Shell(folder)
        for commands, shown in blocks:
            printed = shell.run(commands, shown)
            if are_lines(shown, printed):
                right += 1
                continue
            print(f"{guide}: differs\n{commands}shown:")
            print("\n".join(f"    {line}" for line in shown))
            print("printed:")
            print("\n".join(f"    {line}" for line in printed))
        shell.end()
    return right, len(blocks)


program, guides = sys.argv[1], sys.argv[2:]
counts = [try_guide(program, guide) for guide in guides]
right, all_blocks = sum(count[0] for count in counts), sum(count[1] for count in counts)
print(f"{right} of {all_blocks} as shown")
sys.exit(0 if all_blocks > 0 and right == all_blocks else 1)
PYTHON
