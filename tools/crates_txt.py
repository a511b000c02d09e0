"""crates.txt: the crates of the repository, in blocks by what they are for."""
import pathlib

TOP = pathlib.Path(__file__).resolve().parent.parent


def blocks():
    """The blocks of crates.txt: the comment above each, and its crates."""
    comment, crates = '', []
    for line in [*(TOP / 'crates.txt').read_text(encoding='utf-8').splitlines(), '']:
        if line.startswith('#'):
            comment = line[1:].strip()
        elif line.strip():
            crates.append(line.partition(':')[0].split()[0])
        elif crates:
            yield comment.rstrip('.'), crates
            comment, crates = '', []
