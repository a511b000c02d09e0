"""What a mutant changes: in plain words, and as a source line where the line leaves no doubt."""
import re

# What each mutator does, by its name (docs/MUTATORS.md): in two or three words, and in full.
WORDS = {
    'CONDITIONALS_BOUNDARY': ('boundary changed', '< and <= are exchanged, > and >= likewise'),
    'INCREMENTS': ('increment negated', '++ becomes --, += becomes -=, and back'),
    'INVERT_NEGS': ('negation removed', '-x becomes x'),
    'MATH': ('operation replaced', '+ and -, * and /, & and |, << and >> are exchanged; '
             '% becomes *, ^ becomes &, >>> becomes <<'),
    'NEGATE_CONDITIONALS': ('condition negated', 'the opposite comparison decides'),
    'VOID_METHOD_CALLS': ('call removed', 'a call that gives nothing is left out'),
    'EMPTY_RETURNS': ('gives an empty result',
                      'an empty text, collection or Optional, or 0, is returned'),
    'FALSE_RETURNS': ('gives false', 'false is returned'),
    'TRUE_RETURNS': ('gives true', 'true is returned'),
    'NULL_RETURNS': ('gives null', 'null is returned'),
    'PRIMITIVE_RETURNS': ('gives 0', '0 is returned'),
}

STEPS = {'++': '--', '--': '++', '+=': '-=', '-=': '+='}
OPERATIONS = {'+': '-', '-': '+', '*': '/', '/': '*', '%': '*', '&': '|', '|': '&', '^': '&',
              '<<': '>>', '>>': '<<', '>>>': '<<'}
# By mutator, what each operator of the source becomes.
EXCHANGED = {
    'CONDITIONALS_BOUNDARY': {'<': '<=', '<=': '<', '>': '>=', '>=': '>'},
    'NEGATE_CONDITIONALS': {'<': '>=', '<=': '>', '>': '<=', '>=': '<', '==': '!=', '!=': '=='},
    'INCREMENTS': STEPS,
    'MATH': {**OPERATIONS, **{f'{old}=': f'{new}=' for old, new in OPERATIONS.items()},
             '++': '--', '--': '++'},
}
RETURNED = {'FALSE_RETURNS': 'false', 'TRUE_RETURNS': 'true', 'NULL_RETURNS': 'null',
            'PRIMITIVE_RETURNS': '0'}
# What EMPTY_RETURNS puts in place of a result of these types.
EMPTY = {
    'java/lang/String': '""', 'java/util/Optional': 'Optional.empty()',
    'java/util/List': 'Collections.emptyList()', 'java/util/Set': 'Collections.emptySet()',
    'java/util/Collection': 'Collections.emptyList()',
    'java/lang/Integer': '0', 'java/lang/Short': '0', 'java/lang/Character': '0',
    'java/lang/Long': '0',
}

NO_CODE = re.compile(r'//[^\n\r]*|/\*.*?(?:\*/|\Z)|"(?:\\.|[^"\\\n\r])*"|\'(?:\\.|[^\'\\\n\r])*\'',
                     re.DOTALL)
LINE_END = re.compile(r'\r\n|\r|\n')
OPERATOR = re.compile(r'>>>=?|<<=?|>>=?|\+\+|--|&&|\|\||->|[-+*/%&|^<>=!]=?|[?:~]')
CONDITION = re.compile(
    r'(?:\}\s*)?(?:else\s+)?(?:if|while)\s*\((!?)[\w.]+(?:\([\w., ]*\))?\)\s*\{?$')
HEAD = re.compile(r'(?:else\s+)?(?:if|while|for)\b.*\)$')
CALL = re.compile(r'(?!(?:return|throw|new|if|for|while|do|else)\b)[\w.$]+\([^;={}]*\);$')
ID = re.compile(r'(?P<owner>.*)\.(?P<method>[^.(]+)\([^)]*\)(?P<result>.+)@\d+:\w+', re.DOTALL)


def lines_of(source):
    """The lines of a source, without their ends, as a Java compiler counts them."""
    return LINE_END.split(source)


def code_lines(source):
    """The lines of a source, with blanks for comments and underscores for texts."""
    def blank(match):
        filler = ' ' if match[0].startswith('/') else '_'
        return re.sub(r'[^\n\r]', filler, match[0])
    return lines_of(NO_CODE.sub(blank, source))


def is_whole(code):
    """Whether a line ends where a statement, a block's head or a condition does."""
    code = code.strip()
    return code.endswith((';', '{', '}')) or HEAD.match(code) is not None


class Line:
    """A source line with the mutants that stand on it."""

    def __init__(self, text, code, mutants):
        self.text, self.code, self.mutants = text, code, mutants
        self.operators = list(OPERATOR.finditer(code))

    def count(self, mutator):
        return sum(mutant.get('mutatorName') == mutator for mutant in self.mutants)

    def changed(self, mutant):
        """The line as the mutant makes it, '' where it is gone; None where that is in doubt."""
        mutator = mutant.get('mutatorName')
        if self.count(mutator) != 1 or not is_whole(self.code):
            return None
        if mutator in EXCHANGED:
            return self.with_operator(mutator) or self.with_condition(mutator)
        if mutator == 'INVERT_NEGS':
            return self.without_minus()
        if mutator == 'VOID_METHOD_CALLS':
            return '' if CALL.match(self.code.strip()) else None
        return self.with_result(returned_by(mutator, mutant.get('id', '')))

    def with_operator(self, mutator):
        meant = EXCHANGED[mutator]
        found = [operator for operator in self.operators if operator[0] in meant]
        if mutator == 'MATH':
            steps = [operator for operator in found if operator[0] in STEPS]
            if len(steps) == self.count('INCREMENTS'):
                found = [operator for operator in found if operator not in steps]
        if len(found) != 1:
            return None
        return self.spliced(found[0].start(), found[0].end(), meant[found[0][0]])

    def with_condition(self, mutator):
        """A condition that is one name or call, with its `!` put before it or taken away."""
        indent = len(self.code) - len(self.code.lstrip())
        match = CONDITION.match(self.code.strip())
        if mutator != 'NEGATE_CONDITIONALS' or not match:
            return None
        return self.spliced(indent + match.start(1), indent + match.end(1), '' if match[1] else '!')

    def without_minus(self):
        found = [operator for operator in self.operators if '-' in operator[0]]
        if len(found) != 1 or found[0][0] != '-':
            return None
        before = self.code[:found[0].start()].rstrip()
        if not before.endswith(('(', ',', '=', '?', ':', 'return')):
            return None
        return self.spliced(found[0].start(), found[0].end(), '')

    def with_result(self, result):
        found = list(re.finditer(r'\breturn\b([^;]*);', self.code))
        if result is None or len(found) != 1 or len(re.findall(r'\breturn\b', self.code)) != 1:
            return None
        return self.spliced(found[0].start(1), found[0].end(1), f' {result}')

    def spliced(self, start, end, text):
        return self.text[:start] + text + self.text[end:]


def returned_by(mutator, identifier):
    if mutator != 'EMPTY_RETURNS':
        return RETURNED.get(mutator)
    match = ID.fullmatch(identifier)
    return EMPTY.get(match['result'][1:-1]) if match else None


def line_of(mutant):
    return mutant['location']['start']['line']


def changed_lines(source, mutants):
    """For each mutant of a file, in order, its source line as it makes it, or None."""
    texts, codes = lines_of(source), code_lines(source)
    on_line = {}
    for mutant in mutants:
        on_line.setdefault(line_of(mutant), []).append(mutant)
    lines = {number: Line(texts[number - 1], codes[number - 1], there)
             for number, there in on_line.items() if source and number <= len(texts)}
    return [lines[line_of(mutant)].changed(mutant) if line_of(mutant) in lines else None
            for mutant in mutants]
