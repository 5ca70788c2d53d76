"""Fills the viewer, viewer.html, with a story: the page of a run."""

from yolgibat import story

# The place of the story in the viewer, and what stands at its begin where more of the story comes from a server.
STORY = b"/*STORY*/"
WHOLE, GROWS = '<html lang="en">', '<html lang="en" data-more="{more}" data-bytes="{bytes}">'


def fill(raw: bytes, more: str | None = None) -> bytes:
    """The page of a story; `story.Bad` if it is none. Of one that is cut off it has what came.

    With `more` the page asks for what comes behind it, at that address and the number of bytes that it has.
    """
    story.read(raw)
    lines, page = raw[: raw.rfind(b"\n") + 1], story.VIEWER.read_text()
    if more is not None:
        page = page.replace(WHOLE, GROWS.format(more=more, bytes=len(lines)), 1)
    # A mark can only begin in a text, so the story stays the same.
    return page.encode().replace(STORY, lines.replace(b"<", rb"\u003c"), 1)
