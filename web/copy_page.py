"""Copies the page into one folder, for any host of static files:

    web/folder FOLDER

The folder must be new or empty. It gets the files of page_files.json, and the pages that the footer links to. It
needs only python3."""
import json
import os
import shutil
import sys

WEB = os.path.dirname(os.path.realpath(__file__))
# The targets of the footer's links, and their new names.
PAGES = {"../README.md": "pages/README.md", "../docs/PROMISES.md": "pages/PROMISES.md", "README.md": "pages/web.md"}


def fail(why):
    sys.exit(f"web/folder: {why}")


def with_own_links(page):
    """The page with its links to the repository changed to the copies."""
    for link, copy in PAGES.items():
        if page.count(f'href="{link}"') != 1:
            fail(f"the page has no single link to {link}")
        page = page.replace(f'href="{link}"', f'href="{copy}"')
    return page


def write_page(folder):
    """Writes the page to the folder. Returns the number of its files."""
    os.makedirs(os.path.join(folder, "pages"), exist_ok=True)
    with open(os.path.join(WEB, "page_files.json"), encoding="utf-8") as file:
        names = json.load(file)
    for name in names:
        shutil.copyfile(os.path.join(WEB, name), os.path.join(folder, name))
    for link, copy in PAGES.items():
        shutil.copyfile(os.path.join(WEB, link), os.path.join(folder, copy))
    path = os.path.join(folder, "index.html")
    with open(path, encoding="utf-8") as file:
        page = with_own_links(file.read())
    with open(path, "w", encoding="utf-8") as file:
        file.write(page)
    return len(names)


def main():
    args = sys.argv[1:]
    if len(args) != 1 or args[0].startswith("-"):
        sys.exit("usage: web/folder FOLDER")
    folder = args[0]
    try:
        if os.path.exists(folder) and (not os.path.isdir(folder) or os.listdir(folder)):
            fail(f"{folder} is there, and isn't an empty folder")
        count = write_page(folder)
    except OSError as error:
        fail(f"{error.filename}: {error.strerror}")
    print(f"{folder}: {count} files and {len(PAGES)} pages")
