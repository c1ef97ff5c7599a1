#!/usr/bin/env python3
"""Takes pictures of the board's page in headless Chromium: on a wall, 1600 by 900; at a desk, 1000 wide, and on a phone, 390 wide,
all of the page, each by day and by night; and in print, as PDF, and as PNG too where pdftoppm is found.

The page is a file, or what a program writes, as in
    bench/board.py --out pictures -- plandesk board --db night.db
    bench/board.py --out pictures --page board.html
"""
import argparse
import os
import re
import shutil
import subprocess
import sys
import tempfile

NAMES = ("chromium", "chromium-browser", "google-chrome")


def found_browser(name):
    for candidate in [name] if name else NAMES:
        path = shutil.which(candidate)
        if path:
            return path
    sys.exit("board.py: no Chromium is found: name one by --browser")


def made_page(command):
    done = subprocess.run(command, stdout=subprocess.PIPE)
    if done.returncode != 0:
        sys.exit(f"board.py: {command[0]} ended with {done.returncode}")
    return done.stdout


def faults_of(page):
    """What a page of the board never has: a script, or anything from outside. Its paths lead to looks of the same desk."""
    words = (b"<script", b"http:", b"https:", b"src=", b"url(", b"@import")
    outside = re.findall(rb'href="(?!/board|/page/(?:why|show)/)[^"]*"', page)
    return [word.decode() for word in (*words, *outside) if word in page.lower() or word in outside]


def run_browser(browser, profile, words):
    command = [
        "nice", "-n", "19", browser, "--headless", "--no-sandbox", "--disable-gpu", "--hide-scrollbars",
        f"--user-data-dir={profile}", *words,
    ]
    done = subprocess.run(command, stdout=subprocess.PIPE, stderr=subprocess.STDOUT)
    if done.returncode != 0:
        sys.exit(f"board.py: {browser} ended with {done.returncode}:\n{done.stdout.decode(errors='replace')}")
    return done.stdout.decode(errors="replace")


def height_of(browser, profile, page, width, folder):
    """How high a page is at a width: a copy of that width tells its height in its title, which a dump of it shows. (The window of
    a dump isn't as narrow as that of a picture.)"""
    copy = os.path.join(folder, "measured.html")
    tell = b"<script>document.title='height '+Math.ceil(document.documentElement.scrollHeight)</script></body>"
    with open(page, "rb") as file:
        text = file.read().replace(b'<meta http-equiv="refresh" content="30">', b"").replace(b"</body>", tell)
    text = text.replace(b"</head>", f"<style>html{{width:{width}px}}</style></head>".encode())
    with open(copy, "wb") as file:
        file.write(text)
    said = run_browser(browser, profile, [f"--window-size={width},400", "--dump-dom", f"file://{copy}"])
    return int(said.split("<title>height ")[1].split("<")[0])


def picture(browser, profile, page, width, height, path):
    """A picture of the page, and one where whoever looks prefers dark colours."""
    for words, name in ([], f"{path}.png"), (["--force-dark-mode", "--blink-settings=preferredColorScheme=0"], f"{path}-dark.png"):
        run_browser(browser, profile, [*words, f"--window-size={width},{height}", f"--screenshot={name}", f"file://{page}"])
        print(name)


def printed(browser, profile, page, path):
    run_browser(browser, profile, ["--no-pdf-header-footer", f"--print-to-pdf={path}.pdf", f"file://{page}"])
    print(f"{path}.pdf")
    if shutil.which("pdftoppm"):
        subprocess.run(["pdftoppm", "-r", "100", "-png", f"{path}.pdf", path], check=True)
        print(f"{path}-*.png")


def main():
    parser = argparse.ArgumentParser(description=__doc__, formatter_class=argparse.RawDescriptionHelpFormatter)
    parser.add_argument("--out", default=".", help="the folder in which the pictures are put")
    parser.add_argument("--page", help="a file that has the page")
    parser.add_argument("--browser", help="the browser's name or path; else the first of " + ", ".join(NAMES))
    parser.add_argument("command", nargs="*", metavar="COMMAND", help="a program that writes the page")
    given = parser.parse_args()
    if bool(given.page) == bool(given.command):
        parser.error("give either --page or a command")
    browser = found_browser(given.browser)
    os.makedirs(given.out, exist_ok=True)
    if given.command:
        text = made_page(given.command)
    else:
        with open(given.page, "rb") as file:
            text = file.read()
    faults = faults_of(text)
    if faults:
        sys.exit(f"board.py: the page has {', '.join(faults)}")
    out = os.path.abspath(given.out)
    with tempfile.TemporaryDirectory() as folder:
        page = os.path.join(folder, "board.html")
        with open(page, "wb") as file:
            file.write(text)
        profile = os.path.join(folder, "profile")
        picture(browser, profile, page, 1600, 900, os.path.join(out, "board-wall"))
        for width, name in (1000, "board-desk"), (390, "board-phone"):
            picture(browser, profile, page, width, height_of(browser, profile, page, width, folder), os.path.join(out, name))
        printed(browser, profile, page, os.path.join(out, "board-print"))


if __name__ == "__main__":
    main()
