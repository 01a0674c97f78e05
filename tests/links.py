#!/usr/bin/env python3
"""Checks the pages: each link of a Markdown page leads to a file of the repository, and to a heading of it where
it names one; each path in backquotes that begins with crates/, docs/, tests/, bench/ or examples/ is there; each
crate has a row in docs/claims/README.md, which links its page where it has one, and no page is of a crate that is gone.
The last line is 'N passed, N failed'."""
import glob
import os
import re
import subprocess

TOP = os.path.dirname(os.path.dirname(os.path.abspath(__file__)))
passed, failed = 0, 0


def fail(text):
    global failed
    failed += 1
    print(f"link {text}")


def see(holds, text):
    global passed
    if holds:
        passed += 1
    else:
        fail(text)


def lines_outside_code(page):
    """The page's lines with their numbers, without those that show code."""
    inside = False
    for number, line in enumerate(open(page, encoding="utf-8"), 1):
        if line.startswith("```"):
            inside = not inside
        elif not inside and not line.startswith("    "):
            yield number, line


def anchors(page):
    """The names by which a page's headings are linked."""
    found = set()
    for _, line in lines_outside_code(page):
        heading = re.match(r"#+ +(.*)", line)
        if heading:
            text = re.sub(r"\[([^]]*)\]\([^)]*\)", r"\1", heading[1]).strip().lower()
            found.add(re.sub(r"[^\w\- ]", "", text).replace(" ", "-"))
    return found


def check_page(page):
    name = os.path.relpath(page, TOP)
    for number, line in lines_outside_code(page):
        for target in re.findall(r"\]\(([^)\s]+)\)", re.sub(r"`[^`]*`", "", line)):
            if re.match(r"[a-z]+:", target):
                continue
            file, _, anchor = target.partition("#")
            path = os.path.normpath(os.path.join(os.path.dirname(page), file)) if file else page
            there = os.path.exists(path) and (path + os.sep).startswith(TOP + os.sep)
            see(there, f"{name}:{number}: {target} leads nowhere")
            if there and anchor:
                see(anchor in anchors(path), f"{name}:{number}: {target} has no such heading")
        for target in re.findall(r"`((?:crates|docs|tests|bench|examples)/[\w./-]+)`", line):
            if not re.search(r"NAME|/out(/|$)", target):
                see(os.path.exists(os.path.join(TOP, target)), f"{name}:{number}: {target} is not there")


def check_claims():
    rows = [re.match(r"([a-z][a-z0-9_]*)[ :]", line) for line in open(f"{TOP}/crates.txt", encoding="utf-8")]
    crates = sorted(it[1] for it in rows if it)
    table = open(f"{TOP}/docs/claims/README.md", encoding="utf-8").read()
    for crate in crates:
        pages = [f"{crate}.md"] if os.path.exists(f"{TOP}/docs/claims/{crate}.md") else [
            os.path.basename(it) for it in glob.glob(f"{TOP}/docs/claims/{crate}-*.md")]
        named = all(f"]({it})" in table for it in pages) if pages else f"| `{crate}` |" in table
        see(named, f"docs/claims/README.md: the crate {crate} has no row")
    for page in glob.glob(f"{TOP}/docs/claims/*.md"):
        name = os.path.basename(page)[:-3]
        see(name == "README" or name.partition("-")[0] in crates, f"docs/claims/{name}.md: there is no such crate")


def main():
    how = {"cwd": TOP, "capture_output": True, "text": True}
    ran = subprocess.run(["git", "ls-files", "-co", "--exclude-standard", "*.md"], **how)
    for page in sorted(set(ran.stdout.split())):
        if os.path.exists(f"{TOP}/{page}"):
            check_page(f"{TOP}/{page}")
    check_claims()
    print(f"{passed} passed, {failed} failed")
    raise SystemExit(1 if failed else 0)


if __name__ == "__main__":
    main()
