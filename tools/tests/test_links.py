"""Each link of a page leads to a file that is there, and to a heading that it has; the guide's pages hang together."""
import re
from pathlib import Path

import pytest

from tools import guide

TOP = Path(__file__).resolve().parents[2]
FOLDERS = (".", "docs", "crates", "examples/station", "scripts/recorded")
PAGES = sorted(page for folder in FOLDERS for page in (TOP / folder).glob("*.md"))
FRAME = re.compile(r"^(```+).*?^\1$", re.DOTALL | re.MULTILINE)
CODE = re.compile(r"`[^`\n]*`")
LINK = re.compile(r"\]\(([^()\s]+)\)")


def headings(page):
    """The titles of a page, as they are written."""
    text = FRAME.sub("", page.read_text(encoding="utf-8"))
    return re.findall(r"^#+ +(.+?) *$", text, re.MULTILINE)


def anchors(titles):
    """The names of headings as GitHub gives them: small letters, digits and hyphens; a second alike ends with -1."""
    names, seen = set(), {}
    for title in titles:
        shown = re.sub(r"\[([^\]]*)\]\([^)]*\)", r"\1", title)
        name = re.sub(r"[^\w\- ]", "", shown.lower()).replace(" ", "-")
        count = seen[name] = seen.get(name, -1) + 1
        names.add(f"{name}-{count}" if count else name)
    return names


def links(page):
    """Where a page's links lead, but for those out of the repository."""
    text = CODE.sub("", FRAME.sub("", page.read_text(encoding="utf-8")))
    return [link for link in LINK.findall(text) if not re.match(r"[a-z]+:", link)]


def is_there(page, link):
    name, _, anchor = link.partition("#")
    target = (page.parent / name).resolve() if name else page
    return target.exists() and (not anchor or anchor in anchors(headings(target)))


class TestLinks:
    @pytest.mark.parametrize("page", PAGES, ids=lambda page: str(page.relative_to(TOP)))
    def test_each_link_leads_to_a_file_and_a_heading(self, page):
        assert [] == [link for link in links(page) if not is_there(page, link)]

    def test_names_of_headings_are_those_that_a_browser_gets(self):
        titles = ("7. q: how many may be wrong", "What isn't `read`", "A [link](to.md)", "A link", "a_b - c")
        assert anchors(titles) == {"7-q-how-many-may-be-wrong", "what-isnt-read", "a-link", "a-link-1", "a_b---c"}

    def test_every_page_stands_in_the_list_of_pages(self):
        listed = {(TOP / "docs" / link).resolve() for link in links(TOP / "docs/README.md")}
        there = set((TOP / "docs").glob("*.md")) - {TOP / "docs/README.md"}
        assert set() == {page.name for page in there - listed}


class TestGuide:
    @pytest.mark.parametrize("name", guide.PAGES)
    def test_a_page_lists_its_chapters_and_leads_to_the_others(self, name):
        page = TOP / name
        chapters = [title for title in headings(page) if re.match(r"\d+\. ", title)]
        assert chapters == [f"{number}. {title.split('. ', 1)[1]}" for number, title in enumerate(chapters, 1)]
        listed = links(page)
        assert all(f"#{anchor}" in listed for anchor in anchors(chapters))
        assert all(any(link.startswith(Path(other).name) for link in listed) for other in guide.PAGES if other != name)

    @pytest.mark.parametrize("name", guide.PAGES)
    def test_each_frame_of_commands_is_typed(self, name):
        text = (TOP / name).read_text(encoding="utf-8")
        assert len(guide.BLOCK.findall(text)) == len(re.findall(r"^```sh$", text, re.MULTILINE))
