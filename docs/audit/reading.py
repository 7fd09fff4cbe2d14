"""Reads the files of specs/ and of src/ as texts: which names each makes and imports, and what stands behind a name.

It knows the forms that these files have. A line of specs/ that it can't read ends the script, so that no definition is passed over.
"""
import collections, functools, glob, re, sys

PART = r"[^\s(){}\[\],;.@\"⟦⟧]+"
WORD = re.compile(r"(?<![^\s(){}\[\],;@\"⟦⟧])%s(?:\.%s)*" % (PART, PART))
VISIBLE = r"(?:pub(?:\([^)]*\))? )?"


def read(path):
    with open(path, encoding='utf-8') as file:
        return file.read()


def is_comment(line):
    return line.strip().startswith('-- ') or line.strip() == '--'


@functools.lru_cache(None)
def bare(text):
    """A text without its comments and without what it quotes."""
    text = re.sub(r'"(?:[^"\\\n]|\\.)*"', '""', text)
    text = re.sub(r"\{-.*?-\}", ' ', text, flags=re.S)
    return re.sub(r"(^|\s)(?:--|//).*$", r"\1", text, flags=re.M)


def words_of(text):
    """The words of a bare text that may be names: `if`, and a `then` and an `else` that belong to an `if`, are none."""
    before = collections.Counter()
    for word in WORD.findall(text):
        opened = {'then': 'if', 'else': 'then'}.get(word)
        if word == 'if' or opened and before[opened]:
            before[word] += 1
            before[opened] -= 1
        else:
            yield word


LANGUAGE = set(': → = × λ ⊥ ¬ | ← ↦ _ Rattle Type Unit tt abbrev data deriving do in let module mutual package pub record unfoldable unfolding where'.split())


def bound_in(text):
    """The words that a bare text of specs/ binds somewhere: by types, patterns, `λ`, `let` and `←`, and as names of fields."""
    places = re.findall(r"λ ([^.:]*)[.:]|[({]\s*((?:[^\s(){}:;,]+\s+)+):(?=\s)|\|([^|↦]*)↦|\blet\s([^=:]*)[=:]|(\S+)\s+(?:=|:|←)(?=\s)", text)
    places = [''.join(it) for it in places]
    for line in text.split('\n'):
        depth = 0
        for at, letter in enumerate(line):
            depth += {'(': 1, '{': 1, ')': -1, '}': -1}.get(letter, 0)
            if letter == '=' and not depth and line[at - 1:at + 2].strip() == '=':
                places.append(line[:at])
                break
    return {word.split('.')[0].strip('«»') for it in places for word in words_of(it)}


def spellings(name):
    """How a name is written: an operator by its whole name, or by what stands between its arguments."""
    name = name.strip('«»')
    return [name] + [it for it in name.split('◌') if it] if '◌' in name else [name]


def balanced(text, at):
    """Behind the bracket that closes the one at this place."""
    depth = 0
    for place in range(at, len(text)):
        depth += {'{': 1, '}': -1}.get(text[place], 0)
        if not depth:
            return place + 1
    return len(text)


def imports(text, keyword):
    """What a file imports: name -> places (module, name there); name -> module; and the modules whose names it passes on."""
    names, modules, passed = collections.defaultdict(list), {}, []
    form = keyword + r"\s+(?:package\.)?([^\s{;]+?)(?:\.\{([^}]*)\}|(\.\*)|\s+as\s+([^\s;]+))?\s*;?[ \t]*$"
    for found in re.finditer(form, text, re.M):
        path, items, every, alias = found.groups()
        first, dot, rest = path.partition('.')
        path = modules.get(first, first) + dot + rest
        if every:
            passed.append(path)
        elif items is None:
            modules[alias or path.split('.')[-1]] = path
        for item in (items or '').split(','):
            parts = item.split()
            if parts:
                inner, dot, name = parts[0].rpartition('.')
                for spelling in spellings(parts[-1] if len(parts) > 1 else name):
                    names[spelling].append((path + dot + inner, name))
    return names, modules, passed


MUTUAL = re.compile(r"(?:abbrev )?mutual$")


def sectioned(text):
    """The lines of a file, each moved left out of its `mutual` and `module _ .. where` blocks, with the heads of the latter."""
    blocks, opening = [(0, ())], []
    for line in text.split('\n'):
        column = len(line) - len(line.lstrip())
        if not line.strip() or is_comment(line):
            yield '' if opening or column <= blocks[-1][0] else line[blocks[-1][0]:], blocks[-1][1]
            continue
        if opening and (MUTUAL.match(opening[-1]) or opening[-1].endswith('where')):
            head = () if MUTUAL.match(opening[0]) else ('\n'.join(opening),)
            blocks.append((column, blocks[-1][1] + head))
            opening = []
        while column < blocks[-1][0]:
            blocks.pop()
        if opening or column == blocks[-1][0] and (MUTUAL.match(line.strip()) or line.strip().startswith('module _')):
            opening.append(line[blocks[-1][0]:].rstrip())
        else:
            yield line[blocks[-1][0]:], blocks[-1][1]


def declared_by(line):
    """The name that a line at the left declares, if it goes not on with the definition above."""
    found = re.match(r"((?:(?:pub|abbrev|unfoldable|pattern|axiom|ruleset)\s+)*(?:(?:data|record)\s+)?)(\S+)", line)
    return found.group(2) if found.group(1) or re.match(r"\S+\s+:(?:\s|$)", line) else None


def members(body):
    """The head of a `data` or `record`; and its constructors or fields: names, words, and whether a comment stands above."""
    at = next((k for k, line in enumerate(body) if re.search(r"(?:^|\s)where(?:\s|$)", line)), len(body))
    head, found, said, column = body[:at + 1], [], False, None
    for line in body[at + 1:]:
        if is_comment(line) or not line.strip():
            said = said or bool(line.strip())
            continue
        indent = len(line) - len(line.lstrip())
        column = indent if column is None else column
        names = re.match(r"\s*(?:pub\s+)?((?:[^\s:(){}]+\s+)+):(?:\s|$)", line)
        if names and indent == column:
            found.append((names.group(1).split(), [line[names.end():]], said))
            said = False
        elif found:
            found[-1][1].append(line)
    return head, found


class Spec:
    """A file of specs/: its definitions, each with its lines, the heads of the sections around it, and the names that it makes."""

    def __init__(self, path):
        self.path, self.text = path, read(path)
        self.crate = path.split('/')[1]
        inner = re.sub(r"(?:^|/)Lib$", '', path.split('/specs/')[1][:-5]).replace('/', '.')
        self.module = ('Rattle.%s.specs.%s' % (self.crate, inner)).rstrip('.')
        self.names, self.modules, self.passed = imports(self.text, r"^(?:(?:unfoldable )?pub )?use")
        self.bodies, self.heads, self.owner = collections.OrderedDict(), {}, {}
        self.read_definitions()
        for name in self.bodies:
            for spelling in spellings(name):
                self.owner[spelling] = [name]
        for name, body in self.bodies.items():
            for made in self.made_by(body):
                owners = self.owner.setdefault(made, [])
                if name not in owners and made not in self.bodies:
                    owners.append(name)

    def read_definitions(self):
        current = None
        for line, heads in sectioned(self.text):
            if not line.strip() or line[0].isspace():
                if current and line.strip():
                    self.bodies[current].append(line)
            elif re.match(r"(?:(?:unfoldable )?pub )?(?:use|mod)\s|infix", line):
                current = None
            elif declared_by(line) and declared_by(line) not in self.bodies:
                current = declared_by(line)
                self.bodies[current], self.heads[current] = [line], heads
            elif current and (re.match(r"unfolding |[})\]]", line) or any(it in line for it in spellings(current))):
                self.bodies[current].append(line)
            else:
                sys.exit('closure: %s: no form of a definition that is known: %s' % (self.path, line))

    def made_by(self, body):
        """The names that a definition makes beside its own: constructors, and what is derived. The fields of a record come with its type."""
        for line in body:
            yield from re.findall(r"\bderiving \S+ as (\S+)", line)
        if re.match(r"(?:pub )?data ", body[0]):
            for names, _, _ in members(body)[1]:
                for name in names:
                    yield from spellings(name)

    def fields(self, name):
        """The fields of a record: name -> (its words, whether a comment stands above it); and the words at its head."""
        if not re.match(r"(?:pub )?record ", self.bodies[name][0]):
            return collections.OrderedDict(), ''
        head, found = members(self.bodies[name])
        return collections.OrderedDict((it, ('\n'.join(lines), said)) for names, lines, said in found for it in names), '\n'.join(head)

    def words(self, name):
        return '\n'.join(self.heads[name]) + '\n' + '\n'.join(self.bodies[name])

    def unknown(self, name):
        """The words of a definition that nothing makes: no definition or import of the file, no binder, and no word of the language."""
        text = bare(self.words(name))
        known = bound_in(text) | LANGUAGE
        for word in dict.fromkeys(words_of(text)):
            first = word.split('.')[0].strip('«»')
            if not (first in known or first in self.names or first in self.modules or first in self.owner or first.isdecimal()):
                yield word

    def targets(self, word, inside=None):
        """Where the things stand that a word of this file may mean. Within a `data` its own constructors come first."""
        own = self.owner.get(word.split('.')[0].strip('«»'), [])
        return [(self.module, it) for it in ([inside] if inside in own else own)] + named(self, word)


def named(scope, word):
    """The places that a word means by the imports of a file: (module, name there). Behind the name of a type its members may stand."""
    first, *rest = [it.strip('«»') for it in word.split('.')]
    found = list(scope.names.get(first, []))
    if first == 'Rattle' or first == 'package':
        found += below('', [first] * (first == 'Rattle') + rest)
    elif rest and first in scope.modules:
        found += below(scope.modules[first], rest)
    return found


def below(module, parts):
    """What a path means that goes on behind a module: the first name of it, or what a generated module declares."""
    for at, part in enumerate(parts):
        if '.declared.' in module + '.':
            return [('.'.join([module] + parts[at:-1]), parts[-1])]
        spec = SPECS.get(module)
        if spec and part in spec.owner:
            return [(module, part)]
        if spec and part in spec.names:
            return spec.names[part]
        module = spec.modules[part] if spec and part in spec.modules else (module + '.' + part).strip('.')
    return []


def meant(module, name):
    """The definitions that a name of a module means, through the files that only pass it on; or what is declared there."""
    spec = SPECS.get(module)
    if '.declared.' in module + '.':
        return [(module, name)]
    if spec and name in spec.owner:
        return [(module, it) for it in ([name] if name in spec.bodies else spec.owner[name])]
    if not spec:
        return []
    places = list(spec.names.get(name, []))
    for other in spec.passed:
        places.append((other if other.startswith('Rattle.') else module + '.' + other, name))
    return [it for place in places if place != (module, name) for it in meant(*place)]


def pieces(text):
    """What stands between the commas of a text, those in brackets apart."""
    depth, parts = 0, ['']
    for letter in text:
        depth += {'{': 1, '}': -1}.get(letter, 0)
        if letter == ',' and not depth:
            parts.append('')
        else:
            parts[-1] += letter
    return [it.strip() for it in parts if it.strip()]


def spread(path):
    """The paths that a `use` of Rust stands for."""
    at = path.find('{')
    if at < 0:
        return [path]
    return [path[:at] + it for part in pieces(path[at + 1:path.rindex('}')]) for it in spread(part)]


def rust_uses(text):
    """What a file of src/ imports as Rust: name -> the path to it."""
    found = {}
    for path in re.findall(r"^\s*%suse ([^;]+);" % VISIBLE, text, re.M):
        for item in spread(' '.join(path.split())):
            whole, _, alias = item.partition(' as ')
            parts = whole.replace(' ', '').split('::')
            found[alias.strip() or parts[-1]] = parts
    return found


def blocks_of(text):
    """The impls and traits of a file: where each begins and ends, its head, and whether it is a public trait."""
    for block in re.finditer(r"^(pub )?(impl|trait)\b(?:<[^>]*>)?\s*([^\n]*)\{$", text, re.M):
        yield block.start(), text.find('\n}', block.start()), block.group(3), block.group(1) and block.group(2) == 'trait'


def ghost_members(text):
    """The types or values of the ghost members of a trait, an impl or a struct: name -> text."""
    return {it.group(1): text[it.end():balanced(text, it.end() - 1) - 1] for it in re.finditer(r"\bghost (\w+)\s*[:=]\s*\{", text)}


CLAUSE = re.compile(r"(?:\s|//[^\n]*\n)*(ghost|requires|ensures)\b\*?\s*(\w+)?\s*:?\s*\{")


def clauses_of(text, at):
    """The clauses that begin at this place, name -> text, where a clause without a name has a number; and the names that only a `requires`
    has: what a caller has to keep, and no clause."""
    clauses, kinds = {}, collections.defaultdict(set)
    while found := CLAUSE.match(text, at):
        at = balanced(text, found.end() - 1)
        name = found.group(2) or str(len(clauses))
        clauses[name] = text[found.end():at - 1]
        kinds[found.group(1)].add(name)
    return clauses, kinds['requires'] - kinds['ensures']


Function = collections.namedtuple('Function', 'name public signature clauses premises')


class Source:
    """A file of src/: its types, traits and constants, what it imports, and its functions with their clauses."""

    def __init__(self, path):
        self.path, self.text = path, read(path)
        self.crate = path.split('/')[1]
        self.names, self.modules, self.passed = imports(self.text, r"^\s*ghost use")
        self.uses = rust_uses(self.text)
        self.blocks = list(blocks_of(self.text))
        self.items = {}
        for found in re.finditer(r"^(pub(?:\([^)]*\))? )?(struct|enum|trait|type) (\w+)", self.text, re.M):
            opened = re.compile(r"\{|;\s*$", re.M).search(self.text, found.end())
            end = balanced(self.text, opened.start()) if opened and opened.group() == '{' else opened.end()
            self.items[found.group(3)] = (found.group(2), bool(found.group(1)), self.text[found.start():end])
        self.constants = set()
        for found in re.finditer(r"^( *)%s(?:const|static) ([A-Z]\w*):" % VISIBLE, self.text, re.M):
            owner = self.owner_at(found.start()) if found.group(1) else None
            self.constants.add((owner + '.' if owner else '') + found.group(2))

    def around(self, at):
        return [block for block in self.blocks if block[0] < at < block[1]]

    def owner_at(self, at):
        """The type or trait in whose block this place is."""
        around = self.around(at)
        return re.search(r"\w+", around[-1][2].split(' for ')[-1]).group(0) if around else None

    def targets(self, word, inside=None):
        return named(self, word)

    def has(self, name):
        return name in self.items or name in self.constants

    def find(self, name):
        """The file that has the type, the trait or the constant which this file names so, and its name there."""
        if self.has(name):
            return self, name
        path = self.uses.get(name)
        if not path:
            return None
        return find_in(self.crate if path[0] in ('crate', 'self', 'super') else path[0], path[-1], path[1:-1])

    def model(self, kind):
        """The type of a model's values and what a value is of the fields."""
        found = re.search(r"^impl(?:<[^>]*>)? Model for %s\b" % kind, self.text, re.M)
        block = self.text[found.start():self.text.find('\n}', found.start())] if found else ''
        ghosts = ghost_members(block)
        return ghosts['Value'] + ' ' + ghosts['view'] if 'Value' in ghosts else None

    def told_by(self, kind, contracts):
        """What a reader has to know of a type or a trait: its words in Rust, and its words of specs/. Of a trait the contracts
        of its calls too, if they are asked for; of a public struct the public fields alone."""
        sort, public, body = self.items[kind]
        model = self.model(kind)
        if model:
            return '', model
        if sort == 'trait':
            return (body, body) if contracts else (body.split('{')[0], ' '.join(ghost_members(body).values()))
        if sort == 'struct' and public:
            body = '\n'.join(public_fields(body))
        return body, ' '.join(ghost_members(body).values())

    @functools.lru_cache(None)
    def functions(self):
        """The functions that have clauses."""
        handed, found = exports(self.crate), []
        for start in re.finditer(r'^ *(pub )?(?:extern "\w*" )?fn (\w+)', self.text, re.M):
            first = re.compile(r"^\s*(?:ghost \w+:|requires|ensures)\b", re.M).search(self.text, start.start())
            head = self.text[start.start():first.start()] if first else ''
            if not first or re.search(r"[{;]\n|\bfn .*\bfn ", head, re.S):
                continue
            around = self.around(start.start())
            if around:
                owner = set(re.findall(r"\w+", around[-1][2].split(' for ')[-1]))
                public = bool(start.group(1) or around[-1][3]) and bool(owner & handed)
            else:
                public = bool(start.group(1)) and start.group(2) in handed
            signature = around[-1][2] + head if around else head
            at = first.start()
            found.append(Function(start.group(2), public, signature, *clauses_of(self.text, at)))
        return found


def public_fields(body):
    """The fields of a struct that are public, as they stand."""
    if '\n' not in body:
        return re.findall(r"\bpub ((?!struct\b)\w[^,;)]*)", body)
    lines, on = [], False
    for line in body.split('\n')[1:]:
        on = bool(re.match(r"    pub ", line)) or on and not re.match(r"    [^\s)}>]", line)
        lines += [line] if on else []
    return lines


@functools.lru_cache(None)
def exports(crate):
    """The names that a crate hands out: those of `pub use` in its root file, the functions that stand there, and what is public in a `pub mod`."""
    names = set()
    for path in ('crates/%s/src/lib.rt' % crate, 'crates/%s/src/main.rt' % crate):
        text = SOURCES[path].text if path in SOURCES else ''
        for found in re.finditer(r"^pub use [\w:]*?(\w+|\{[^}]*\});", text, re.M):
            names.update(re.findall(r"\w+", found.group(1)))
        names.update(re.findall(r"^pub fn (\w+)", text, re.M))
        for module in re.findall(r"^pub mod (\w+);", text, re.M):
            inner = SOURCES.get('crates/%s/src/%s.rt' % (crate, module))
            names.update(re.findall(r"^pub (?:fn|struct|enum|trait) (\w+)", inner.text if inner else '', re.M))
    return names


def find_in(crate, name, modules):
    """The file of a crate that has a type, a trait or a constant, the one of these modules first; and its name there."""
    found = [it for it in SOURCES.values() if it.crate == crate and it.has(name)]
    if found:
        own = [it for it in found if it.path[:-3].endswith('/'.join(['src'] + list(modules)))]
        return (own or found)[0], name
    roots = [it for it in SOURCES.values() if it.crate == crate and it.path.endswith(('src/lib.rt', 'src/main.rt'))]
    path = roots[0].uses.get(name) if roots else None
    return find_in(crate, path[-1], path[1:-1]) if path and path[-1] != name else None


def impl_members(trait, kind, member):
    """A ghost member of each impl of a trait for a type, or all of them: its words and the file."""
    for source in SOURCES.values():
        for start, end, head, _ in source.blocks:
            if re.match(r"(?:\w+::)*%s\b.* for (?:\w+::)*%s\b" % (trait, kind), head):
                ghosts = ghost_members(source.text[start:end])
                yield ghosts[member] if member in ghosts else ' '.join(ghosts.values()), source


SPECS, SOURCES = {}, {}


def load():
    """Reads all files of crates/."""
    for path in sorted(glob.glob('crates/*/specs/**/*.antt', recursive=True)):
        spec = Spec(path)
        if not path.endswith('/Lib.antt') or spec.bodies or spec.names or spec.passed:
            SPECS[spec.module] = spec
    for path in sorted(glob.glob('crates/*/src/**/*.rt', recursive=True)):
        SOURCES[path] = Source(path)
