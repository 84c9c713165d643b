"""The smallest texts found that still show a difference."""


def sizes(text):
    """The sizes of what is cut out of a text: its own, a half of it, and so on down to one byte."""
    size = len(text)
    while size:
        yield size
        size //= 2


def shrunk(texts, differs, tries=300):
    """Texts by their names, each cut down as long as `differs` holds of them; it is asked so many times at most."""
    texts = dict(texts)
    for name in sorted(texts, key=lambda name: -len(texts[name])):
        for size in sizes(texts[name]):
            for begin in range((len(texts[name]) - 1) // size * size, -1, -size):
                smaller = {**texts, name: texts[name][:begin] + texts[name][begin + size :]}
                if not tries:
                    return texts
                tries -= 1
                if smaller[name] != texts[name] and differs(smaller):
                    texts = smaller
    return texts
