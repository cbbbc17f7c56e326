"""Source text that is written in words."""


def wrapped(words, indent, width=150):
    """The words in lines of at most this width."""
    lines, line = [], ''
    for w in words:
        if line and len(indent) + len(line) + 1 + len(w) > width:
            lines.append(indent + line)
            line = w
        else:
            line = (line + ' ' + w) if line else w
    return '\n'.join(lines + [indent + line]) + '\n'


def with_commas(words):
    """The words with a comma behind each but the last."""
    return [word + (',' if k + 1 < len(words) else '') for k, word in enumerate(words)]
