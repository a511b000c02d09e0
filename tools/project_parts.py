"""Parts of a project: the class files of some of its packages, and jars of all others; and what is kept of packages beside a JVM."""
import json
import os
import shutil
import zipfile

from preparing.preparation import tool_sum


def part(home, kind, packages, room):
    """Copies the class files of packages into a folder, and all others into a jar; gives both."""
    source, folder, jar = os.path.join(home, kind), os.path.join(room, kind), os.path.join(room, f'{kind}.jar')
    left = set(packages)
    with zipfile.ZipFile(jar, 'w') as archive:
        for base, _, names in os.walk(source):
            package = os.path.relpath(base, source)
            if package in packages:
                left.remove(package)
                os.makedirs(os.path.join(folder, package))
            for name in (name for name in names if name.endswith('.class')):
                path = os.path.join(base, name)
                if package in packages:
                    shutil.copy(path, os.path.join(folder, package, name))
                else:
                    archive.write(path, os.path.relpath(path, source))
    if left:
        raise SystemExit(f'{source} has no package {" ".join(sorted(left))}')
    return folder, jar


def parts(home, packages, room):
    """Classes and tests of packages, each a folder, and the jars of all others."""
    return tuple(zip(*(part(home, kind, packages, room) for kind in ('classes', 'tests'))))


def kept_package(room):
    """What tools/packages-agree keeps of a package in its room, of this tool and library; or None."""
    path = os.path.join(room, 'result.json')
    if not os.path.exists(path):
        return None
    with open(path, encoding='utf-8') as file:
        found = json.load(file)
    return found if found['tool'] == tool_sum([]) else None


def package_row(found):
    """A row of docs/REAL_PROJECTS.md: a package with its tests, its mutants, and those that agree."""
    star = ' *' if found['floats'] else ''
    return f'| `{found["package"]}`{star} | {found["tests"]:,} | {found["mutants"]:,} | {found["agree"]:,} |'


def package_lines(homes):
    """What docs/REAL_PROJECTS.md says of the packages that are kept below the homes of projects."""
    kept = [kept_package(base) for home in homes for base, _, names in sorted(os.walk(os.path.join(home, 'agree'))) if 'result.json' in names]
    kept = [found for found in kept if found is not None]
    floats = [found for found in kept if found['floats']]
    counts = [f'{sum(found["agree"] for found in some):,} of {sum(found["mutants"] for found in some):,}' for some in (kept, floats)]
    return [f'Of {len(kept)} packages {counts[0]} mutants agree; of those with floats, which have a star, {counts[1]}.', '',
            '| Package | Tests | Mutants | Agree |', '|---|---|---|---|', *map(package_row, kept)]
