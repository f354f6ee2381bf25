"""Makes one site of the documents: by it `mkdocs build` takes in what the pages of docs/ link to outside of docs/, and turns those links, which are
written for whoever reads the repository. README.md is the site's first page."""
import posixpath
import re
from pathlib import Path

from mkdocs.structure.files import File

TOP = Path(__file__).resolve().parent.parent
LINK = re.compile(r"(?<=\]\()(?P<path>[^)#:\s]+)(?=[#)])")
# A block's word, and what stands behind it for examples/check.py.
FENCE = re.compile(r"^(```\w+) .*$", re.MULTILINE)


def linked(file):
    """The files that a document of the repository links to, by their paths from its top."""
    for link in LINK.finditer((TOP / file).read_text(encoding="utf-8")):
        yield posixpath.normpath(posixpath.join(posixpath.dirname(file), link["path"]))


def all_linked(files):
    """These files, and all that they link to, however far."""
    found, new = set(), set(files)
    while new:
        found |= new
        new = {other for file in new if file.endswith(".md") for other in linked(file) if (TOP / other).is_file()} - found
    return found


def on_files(files, config):
    """Takes in README.md and all that is linked, but for what docs/ has, which is there. This file is no page."""
    files.remove(files.get_file_from_path(Path(__file__).name))
    for path in sorted(all_linked(["README.md", *(f"docs/{file.src_uri}" for file in files.documentation_pages())])):
        if not path.startswith("docs/"):
            files.append(File(path, str(TOP), config["site_dir"], config["use_directory_urls"]))
    return files


def on_page_markdown(markdown, page, config, files):
    """Turns the links of a page to the places that its targets have on the site."""
    source = Path(page.file.abs_src_path).relative_to(TOP).as_posix()

    def turned(link):
        target = posixpath.normpath(posixpath.join(posixpath.dirname(source), link["path"]))
        return posixpath.relpath(target.removeprefix("docs/"), posixpath.dirname(source.removeprefix("docs/")) or ".")

    return FENCE.sub(r"\1", LINK.sub(turned, markdown))
