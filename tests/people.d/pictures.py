"""Takes the pictures of docs/TUTORIAL.md: python3 tests/people.d/pictures.py PROGRAM. It needs Chromium (apt-get install chromium)."""
import os
import subprocess
import sys
import tempfile

from browser import Browser
from trial import TOOLS, TOP

IMAGES = os.path.join(TOP, "docs", "images")


def report(program: str, folder: str) -> str:
    """Makes the report of the rota, and gives its path."""
    run = lambda *words, **how: subprocess.run(words, cwd=folder, check=True, **how)
    run(os.path.join(TOOLS, "bnc-convert"), os.path.join(TOP, "examples", "rota.lp"), "--output", "rota.mps")
    run(program, "solve", "rota.mps", "rota.journal", "rota.cert")
    path = os.path.join(folder, "rota.html")
    with open(path, "wb") as page:
        run(os.path.join(TOOLS, "bnc-report"), "rota.mps", "rota.cert", "rota.journal", stdout=page)
    return path


def scroll_to(browser: Browser, name: str) -> None:
    browser.value(f"document.getElementById('{name}').scrollIntoView({{behavior: 'instant'}})")


def main(program: str) -> None:
    os.makedirs(IMAGES, exist_ok=True)
    with tempfile.TemporaryDirectory() as folder, Browser() as browser:
        browser.size(1200, 640)
        browser.load(report(program, folder))
        browser.picture(os.path.join(IMAGES, "rota-answer.png"))
        browser.size(1200, 640)
        scroll_to(browser, "tree")
        browser.picture(os.path.join(IMAGES, "rota-tree.png"))


if __name__ == "__main__":
    main(os.path.realpath(sys.argv[1]))
