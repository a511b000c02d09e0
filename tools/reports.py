"""Reports in the mutation testing report schema, and the sources of their files."""
import json
import pathlib

import mutant_words

MOST_BYTES = 16 * 1024 * 1024


class NoReport(Exception):
    """Why a file can't be read as a report."""


def read_report(path):
    """The report, whose files have a source and mutants with an identifier, a mutator, a status, a
    line from 1 on and lists of tests; whatever else it has is as it stands there."""
    try:
        report = json.loads(pathlib.Path(path).read_text(encoding='utf-8'))
    except OSError as error:
        raise NoReport(f'{path}: {error.strerror}') from None
    except (ValueError, RecursionError):
        raise NoReport(f'{path} is no mutation testing report: it is no JSON text') from None
    try:
        is_report = all(is_file(file) for file in report['files'].values())
    except (AttributeError, KeyError, TypeError):
        is_report = False
    if not is_report:
        raise NoReport(f'{path} is no mutation testing report: see tools/check-report')
    return report


def is_file(file):
    return isinstance(file['source'], str) and all(is_mutant(mutant) for mutant in file['mutants'])


def is_mutant(mutant):
    line = mutant_words.line_of(mutant)
    texts = [mutant[name] for name in ('id', 'mutatorName', 'status')]
    for name in ('coveredBy', 'killedBy'):
        texts += mutant.get(name, [])
    return isinstance(line, int) and line >= 1 and all(isinstance(text, str) for text in texts)


def source_of(key, folders):
    """The path and the text of the first file at this key below one of the folders, else None. A key
    leads out of no folder; what isn't UTF-8 is read as Latin-1."""
    for folder in folders:
        path = pathlib.Path(folder, key)
        try:
            if not path.resolve().is_relative_to(pathlib.Path(folder).resolve()):
                continue
            if not path.is_file() or path.stat().st_size > MOST_BYTES:
                continue
            data = path.read_bytes()
        except (OSError, ValueError):
            continue
        try:
            return str(path), data.decode('utf-8')
        except UnicodeDecodeError:
            return str(path), data.decode('latin-1')
    return None
