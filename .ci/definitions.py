"""The definitions of `specs/`, and which of them the public contracts need: those that one names, and those that stand
in the definition of another that is needed."""
import pathlib
import re

ROOT = pathlib.Path(__file__).resolve().parent.parent
WORD = r"[A-Za-z_][\w'\-]*"
HEAD = re.compile(rf"(abbrev )?(unfoldable )?(pub )?(abbrev )?(unfoldable )?(record |data )?({WORD})(?= |$)")
# members of a Model and proofs that a caller sees nothing of
UNSEEN = ("view", "invariant", "coded", "laws", "total", "inverse")


class Definition:
    """A definition of a file of specs/, with its comment and its equations."""

    def __init__(self, module, name, comment, lines, section):
        self.module, self.name, self.comment, self.lines, self.section = module, name, comment, lines, section
        self.public = bool(re.match(r"(?:abbrev |unfoldable )*pub ", lines[0]))
        self.makers = []
        if re.match(r"(?:pub )?data ", lines[0]):
            self.makers = re.findall(rf"^  ({WORD}) :", "\n".join(lines[1:]), flags=re.M)

    def text(self):
        return "\n".join(re.sub(r"^\s*--.*$|\s--\s.*$", "", line) for line in self.lines)

    def names(self):
        return [self.name, *self.makers]


class Module:
    """A file of specs/."""

    def __init__(self, crate, path, root):
        self.crate, self.path = crate, path
        parts = path.relative_to(root / "crates" / crate / "specs").with_suffix("").parts
        self.name = f"Rattle.{crate}.specs.{'.'.join(parts)}"
        self.title, self.uses, self.submodules, self.definitions = [], [], [], []
        self.read(path.read_text().rstrip("\n").split("\n"))

    def read(self, lines):
        i, section, started = 0, None, False
        while i < len(lines):
            line = lines[i]
            if not line.strip():
                i += 1
            elif line.startswith("pub mod "):
                self.submodules.append(line.split()[-1])
                i += 1
            elif re.match(r"(pub )?use ", line):
                started = True
                text = line
                while text.count("{") > text.count("}"):
                    i += 1
                    text += " " + lines[i].strip()
                self.uses.append(text)
                i += 1
            elif line.startswith("--"):
                comment = []
                while i < len(lines) and lines[i].startswith("--"):
                    comment.append(lines[i])
                    i += 1
                if i < len(lines) and HEAD.match(lines[i]) and not re.match(r"(pub )?(use|mod) ", lines[i]):
                    i = self.define(lines, i, comment, section)
                elif not started and not self.definitions and section is None and not self.title:
                    self.title = comment
                else:
                    section = comment
            else:
                i = self.define(lines, i, [], section)

    def define(self, lines, i, comment, section):
        head = HEAD.match(lines[i])
        if not head:
            raise SystemExit(f"{self.path}: what is this? {lines[i]}")
        name, body = head.group(7), [lines[i]]
        i += 1
        while i < len(lines) and (lines[i].startswith((" ", "}", ")")) and lines[i].strip() or re.match(re.escape(name) + r"[ .]", lines[i])):
            body.append(lines[i])
            i += 1
        self.definitions.append(Definition(self, name, comment, body, section))
        return i

    def scope(self):
        """The names that the file imports from this repository: ((module, name) by name, module by alias)."""
        return scope(self.uses)


def scope(uses):
    names, aliases = {}, {}
    for use in uses:
        whole = re.match(r"\s*(?:ghost )?(?:pub )?use (Rattle\.lj_\w+\.specs\.[\w.]+?)(?:\.\{([^}]*)\})?(?: as (\w+))?;?\s*$", use)
        if not whole:
            continue
        module, group, alias = whole.groups()
        if group is None:
            aliases[alias or module.split(".")[-1]] = module
            continue
        for part in (p.strip() for p in group.split(",")):
            if part:
                first, _, last = part.partition(" as ")
                names[last or first] = (module, first)
    return names, aliases


def words(text):
    """The names that a term speaks of, qualified ones as (alias, name)."""
    for found in re.finditer(rf"(?<![\w'.])({WORD})((?:\.{WORD})*)", text):
        yield found.group(1), found.group(2)[1:]


class Sources:
    """The sources of a crate: its contracts, types and what its root hands on."""

    def __init__(self, root, crate):
        self.crate = crate
        self.files = {}
        for path in sorted((root / "crates" / crate / "src").rglob("*.rt")):
            local = path.relative_to(root / "crates" / crate / "src")
            if path.name != "tests.rt" and "tests" not in local.parts:
                self.files[local] = re.sub(r"^\s*//.*$", "", path.read_text(), flags=re.M)
        self.exported = self.handed_on()
        self.types = self.types_of()

    def handed_on(self):
        """The names that the root hands on, and those of its public modules."""
        text = self.files.get(pathlib.Path("lib.rt"), "")
        names, modules = set(), [f"{m}.rt" for m in re.findall(r"^pub mod (\w+);", text, flags=re.M)]
        for path, group, one in re.findall(r"^pub use ([\w:]+?)::(?:\{([^}]*)\}|(\w+));", text, flags=re.M):
            shown = [n.strip().split(" as ")[0] for n in (group or one).split(",")]
            names.update(shown)
            modules += ["/".join((*path.split("::"), n)) + ".rt" for n in shown]
        for module in modules:
            inside = self.files.get(pathlib.Path(module), "")
            names.update(re.findall(r"^pub (?:const )?(?:fn|struct|enum|trait|type|const) (\w+)", inside, flags=re.M))
        return names

    def types_of(self):
        types = {}
        for path, text in self.files.items():
            for kind, name in re.findall(r"^(?:pub(?:\(\w+\))? )?(struct|enum) (\w+)", text, flags=re.M):
                start = re.search(rf"^(?:pub(?:\(\w+\))? )?{kind} {name}\b.*?(?=[{{(;])", text, flags=re.M | re.S).end()
                body = balanced(text, start) if text[start] in "{(" else ""
                types[name] = {"kind": kind, "body": body, "value": None, "path": path}
        for path, text in self.files.items():
            for head in re.finditer(r"^impl\b[^{;]*?\bModel for (\w+)[^{]*", text, flags=re.M):
                block = balanced(text, head.end())
                value = re.search(r"ghost Value = ", block)
                if value and head.group(1) in types:
                    types[head.group(1)]["value"] = balanced(block, value.end())
                    types[head.group(1)]["value_scope"] = scope(re.findall(r"^\s*ghost use [^;]*;", text, flags=re.M))
        return types

    def contracts(self):
        """Each public contract: the file, and the text of its clauses or of its ghost member."""
        for path, text in self.files.items():
            for item, body, owner, trait in items(text):
                if owner is None:
                    if item in self.exported:
                        yield path, body
                elif self.is_seen(owner, trait):
                    yield path, body

    def is_seen(self, owner, trait):
        if trait in self.exported and owner not in self.types:
            return True
        return owner in self.exported


def balanced(text, start):
    """The bracketed text that opens at `start`."""
    depth, i = 0, start
    while i < len(text):
        if text[i] in "{([":
            depth += 1
        elif text[i] in "})]":
            depth -= 1
            if depth == 0:
                return text[start : i + 1]
        i += 1
    raise SystemExit("brackets don't match: " + text[start : start + 60])


def clauses(text, start):
    """The text from a function's name up to its body."""
    depth, i, since = 0, start, start
    while i < len(text):
        c = text[i]
        if c == "{" and depth == 0 and not re.search(r"\b(?:requires|ensures)\*?(?: \w+)? $|\bghost \w+: $", text[since:i]):
            return text[start:i], i
        if c == ";" and depth == 0:
            return text[start:i], i
        if c in "{([":
            depth += 1
        elif c in "})]":
            depth -= 1
            since = i + 1 if depth == 0 else since
        i += 1
    return text[start:], i


def items(text):
    """The public functions, members and ghost members of a file: (name, text, owner, trait)."""
    for head in re.finditer(r"^(?:pub (?:const )?)fn (\w+)", text, flags=re.M):
        yield head.group(1), clauses(text, head.end())[0], None, None
    for head in re.finditer(r"^(?:pub )?(impl|trait)\b([^{;]*)", text, flags=re.M):
        block = balanced(text, head.end())
        subject = re.sub(r"<[^<>]*>", "", re.sub(r"<[^<>]*>", "", re.sub(r"<[^<>]*>", "", head.group(2)))).split(" where ")[0]
        trait, owner = None, subject.split(":")[0].strip()
        if " for " in subject:
            trait, owner = (s.strip() for s in subject.split(" for "))
            trait = trait.split("::")[-1]
        elif head.group(1) == "trait":
            trait = owner
        owner = re.sub(r"^&'?\w* ?(?:mut )?", "", owner).split("::")[-1].strip()
        inherent = head.group(1) == "impl" and trait is None
        for fn in re.finditer(r"^    (pub )?(?:const )?fn (\w+)", block, flags=re.M):
            if fn.group(1) or not inherent:
                yield fn.group(2), clauses(block, fn.end())[0], owner, trait
        if trait == "Model":
            continue
        for member in re.finditer(r"^    ghost (\w+)\s*[:=] *(?=\{)", block, flags=re.M):
            if not member.group(1).startswith(UNSEEN):
                yield member.group(1), balanced(block, member.end()), owner, trait


class Repository:
    def __init__(self, root=ROOT):
        self.root = root
        order = [line.split(":")[0].split()[0] for line in (root / "crates.txt").read_text().split("\n") if line.strip()]
        # callers promise nothing to users, so what they cite is named by others or by nobody
        self.crates = [c for c in order if (root / "crates" / c / "src").exists() and c != "lj_callers"]
        self.sources = {c: Sources(root, c) for c in self.crates}
        self.modules = {}
        for crate in self.crates:
            for path in sorted((root / "crates" / crate / "specs").rglob("*.antt")):
                module = Module(crate, path, root)
                self.modules[module.name] = module
        self.by_name = {}
        for module in self.modules.values():
            for definition in module.definitions:
                for name in definition.names():
                    self.by_name[module.name, name] = definition

    def ordered_modules(self, crate):
        """The files of a crate's specs/, in the order in which its lists of modules name them."""
        result = []

        def visit(prefix, names):
            for name in names:
                module = self.modules[f"{prefix}.{name}"]
                result.append(module)
                visit(module.name, module.submodules)

        root = f"Rattle.{crate}.specs"
        if f"{root}.Lib" in self.modules:
            visit(root, self.modules[f"{root}.Lib"].submodules)
        return result

    def mentions(self, text, names, aliases, own=None):
        """What a text speaks of: definitions, and types of the code as (crate, name)."""
        for word, rest in words(text):
            if word in names:
                yield from self.resolve(*names[word])
            elif word in aliases and rest:
                yield from self.resolve(aliases[word], rest.split(".")[0])
            elif own and (own, word) in self.by_name:
                yield self.by_name[own, word]

    def resolve(self, module, name):
        crate, _, inside = module.split(".", 3)[1:]
        if inside.startswith("declared"):
            parts = inside.split(".")
            for part in (name, *parts):
                if part in self.sources[crate].types:
                    yield crate, part
                    return
        elif (module, name) in self.by_name:
            yield self.by_name[module, name]
        elif module in self.modules:
            again, _ = self.modules[module].scope()
            if name in again:
                yield from self.resolve(*again[name])

    def type_needs(self, crate, name, public):
        """What a type of the code stands for: its Value, or the types of its fields."""
        kind = self.sources[crate].types[name]
        if kind["value"] is not None:
            yield from self.mentions(kind["value"], *kind["value_scope"])
            return
        body = kind["body"]
        if public and kind["kind"] == "struct":
            body = "\n".join(re.findall(r"^\s*pub [^\n]*|\(pub [^)]*\)", body, flags=re.M))
        for word in set(re.findall(r"\b[A-Z]\w*", body)):
            for other in (crate, *self.crates):
                if word in self.sources[other].types and (other == crate or word in self.sources[other].exported):
                    yield other, word
                    break

    def needed(self):
        """(named, needed): the definitions that public contracts name, and all that these stand on."""
        named, todo, seen = [], [], set()
        for crate in self.crates:
            source = self.sources[crate]
            texts = {}
            for path, text in source.contracts():
                texts.setdefault(path, []).append(text)
            for path, parts in texts.items():
                in_scope = scope(re.findall(r"^\s*ghost use [^;]*;", source.files[path], flags=re.M))
                named.extend(self.mentions("\n".join(parts), *in_scope))
            for name in source.types:
                if name in source.exported:
                    named.extend(self.type_needs(crate, name, True))
                    seen.add((crate, name))
        todo = list(named)
        reached = set()
        while todo:
            thing = todo.pop()
            if isinstance(thing, tuple):
                if thing not in seen:
                    seen.add(thing)
                    todo.extend(self.type_needs(*thing, False))
                continue
            if thing in reached:
                continue
            reached.add(thing)
            names, aliases = thing.module.scope()
            todo.extend(self.mentions(thing.text(), names, aliases, thing.module.name))
        return {d for d in named if isinstance(d, Definition)}, reached


def reading_order(repo):
    """The definitions that are to be believed, as they are to be read."""
    return [d for crate in repo.crates for m in repo.ordered_modules(crate) if ".specs.inner" not in m.name for d in m.definitions]


def problems(repo):
    """Where a definition stands in the wrong room or shares its name, and what the sources write out that has a name."""
    _, reached = repo.needed()
    names = {}
    for module in repo.modules.values():
        inner = ".specs.inner." in module.name
        local = module.path.relative_to(repo.root)
        for d in module.definitions:
            if d in reached and inner:
                yield f"{local}: a public contract needs {d.name}: it goes out of inner"
            if d not in reached and not inner:
                yield f"{local}: no public contract needs {d.name}: it goes into inner"
            if d.public and d.name in names:
                yield f"{local}: {d.name} is also the name of a definition in {names[d.name].relative_to(repo.root)}"
            names[d.name] = module.path
        known = {m.name for m in repo.ordered_modules(module.crate)}
        if module.definitions and module.name not in known:
            yield f"{local}: no list of modules names it"
    for path in sorted(repo.root.glob("crates/*/src/**/*.rt")):
        inside = False
        for number, line in enumerate(path.read_text().split("\n"), 1):
            inside = inside or bool(re.match(r"\s+(ensures|requires)\b", line))
            if inside and len(line) > 100:
                yield f"{path.relative_to(repo.root)}:{number}: a clause of more than 100 columns"
            if line.rstrip().endswith(("}", "};")):
                inside = False
    for folder in ("specs", "proofs", "src"):
        for path in sorted(repo.root.glob(f"crates/*/{folder}/**/*.*t")):
            local = path.relative_to(repo.root)
            if path.name == "tests.rt" or {"tests", "lj_tests", "lj_run_tests"} & {*local.parts}:
                continue
            for number, line in enumerate(path.read_text().split("\n"), 1):
                if re.search(r"\b134_?217_?727\b", line) and "const MAX_VARIABLE" not in line:
                    yield f"{local}:{number}: the greatest variable is MAX_VARIABLE"
