"""The sentences of a page, or of the comments of code, that have too many words. tools/check_docs.py asks it of each."""
import glob
import re

MOST = 30

# A sentence ends behind one of these signs and what closes with it, where a capital, a number or a mark of a word begins the next.
END = re.compile(r"(?<=[.!?])[)\]*_\"]*\s+(?=[(\[*_\"`]*[A-Z0-9`])")
# A line of a comment, and its words.
COMMENT = re.compile(r"\s*(?://[/!]?|--)(?!-)\s?(.*)")
# The dot behind these ends none.
SHORT = re.compile(r"\b(et al|e\.g|i\.e|cf)\.")


def plain(text):
    """A text as it is read: code is one word, a link is its words, and an abbreviation has no dot."""
    text = re.sub(r"`[^`]*`", "Code", text)
    text = re.sub(r"\[([^\]]*)\]\([^)]*\)", r"\1", text)
    return SHORT.sub(lambda found: found[1].replace(".", ""), text)


def blocks(parts):
    """The blocks of a page, each with the number of its first line: a paragraph, an item of a list, or a cell of a table.

    The parts are those of `pieces` in tools/check_docs.py. Code, headings and comments are no sentences.
    """
    text, began = [], 0
    for number, kind, _, line in [*parts, (0, "text", "", "")]:
        item = re.match(r"\s*(?:[-*]|\d+\.)\s+(.*)", line)
        if kind != "text" or item or not line.strip() or line.startswith(("#", "|", "<!--")):
            if text:
                yield began, " ".join(text)
            text = []
        if kind != "text" or line.startswith(("#", "<!--")):
            continue
        if line.startswith("|"):
            yield from ((number, cell) for cell in line.strip("| ").split(" | "))
        elif line.strip():
            began = began if text else number
            text.append(item[1] if item else line.strip())


def comments(text):
    """The paragraphs of a file's comments, each with the number of its first line."""
    block, began = [], 0
    for number, line in enumerate([*text.split("\n"), ""], 1):
        found = COMMENT.match(line)
        words = found[1].strip() if found else ""
        if block and (not words or words.startswith(("- ", "|"))):
            yield began, " ".join(block)
            block = []
        if words and not words.startswith("|"):
            began = began if block else number
            block.append(words)


def wrong():
    """Each sentence of a comment of code or of a definition that is too long, as another line of a page that is wrong."""
    for path in sorted(glob.glob("crates/*/src/*.rt") + glob.glob("crates/*/specs/*.antt")):
        with open(path, encoding="utf-8") as file:
            yield from ((path, *found) for found in long_ones(comments(file.read())))


def long_sentences(parts):
    """Each sentence of a page that is too long: the line where its block begins, and what to say."""
    return long_ones(blocks(parts))


def long_ones(numbered):
    """The sentences of these blocks that are too long."""
    for number, block in numbered:
        for sentence in END.split(plain(block)):
            words = [word for word in sentence.split() if re.search(r"\w", word)]
            if len(words) > MOST:
                yield number, f"a sentence of {len(words)} words: {' '.join(words[:8])} .."
