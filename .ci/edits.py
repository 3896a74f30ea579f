"""The wrong bodies of must-fail/: what each edit changes, in which function, and which of them can be tried together."""
import os
import re

FUNCTION = re.compile(r"^(\s*)(?:pub(?:\([^)]*\))?\s+)?(?:const\s+|unsafe\s+|extern \"C\"\s+)*fn\s+(\w+)")


class Edit:
    """A file of must-fail/: pairs of texts, and the functions that must be refused."""

    def __init__(self, crate, name):
        self.crate, self.name = crate, name
        self.pairs, self.functions, self.is_alone, self.is_called = [], set(), False, False
        # Whether it is tried without those answers of the proof that are searches.
        self.is_bare = False
        with open(f"{crate.folder}/must-fail/{name}", encoding="utf-8") as it:
            self.text = it.read()
        file, old = "", None
        for line in self.text.split("\n"):
            if line.startswith("file: "):
                file = line[6:].strip()
            elif line.startswith("old: "):
                old = line[5:]
            elif line.startswith("new:") and old is not None:
                self.pairs.append((file, old, line[4:].removeprefix(" ")))
                old = None
            elif line.startswith("# refused: "):
                self.functions.add(line[11:].strip())
        self.find_functions()
        # The function by the words of the source, also where a check has another name for it.
        self.meant = min(self.functions, default="")

    def find_functions(self):
        """Without lines that name them, the functions that hold the changed texts."""
        is_named, texts = bool(self.functions), {}
        for file, old, new in self.pairs:
            text = texts.get(file) or text_of(self.crate, file)
            if text.count(old) != 1:
                # (applied() says so)
                continue
            name = function_at(text, file, text.index(old))
            texts[file] = text.replace(old, new)
            if "".join(old.split()) == "".join(new.split()):
                # A mark, by which a later pair finds its place.
                continue
            if name is None or not file.startswith("src/"):
                self.is_alone = True
            elif not is_named:
                self.functions.add(name)

    def words(self):
        """The words in the bodies of its functions, as it leaves them: among them the names of all that they call."""
        found, names = set(), {it.rpartition("::")[2] for it in self.functions}
        for text in (self.applied({})[0] or {}).values():
            lines = text.split("\n")
            for first, last, name in functions_in(lines):
                found.update(re.findall(r"\w+", "\n".join(lines[first + 1 : last])) if name in names else [])
        return found

    def applied(self, texts):
        """The texts of the files with the edit applied to these, or why it can't be."""
        changed = dict(texts)
        for file, old, new in self.pairs:
            text = changed.get(file) or text_of(self.crate, file)
            if text.count(old) != 1:
                return None, f"an 'old:' text is in {file} {text.count(old)} times, and not once"
            changed[file] = text.replace(old, new)
        if not self.pairs:
            return None, "it has no 'old:' and 'new:' pair"
        if all(text == (texts.get(file) or text_of(self.crate, file)) for file, text in changed.items()):
            return None, "it changes nothing"
        return changed, None


def text_of(crate, file):
    with open(f"{crate.folder}/{file}", encoding="utf-8") as it:
        return it.read()


def edits_of(crate):
    """The edits of a crate, by name."""
    folder = f"{crate.folder}/must-fail"
    names = sorted(os.listdir(folder)) if os.path.isdir(folder) else []
    return [Edit(crate, name) for name in names if name.endswith(".edit")]


def functions_in(lines):
    """The first line, the last line and the name of each function, as rt fmt lays them out."""
    found = []
    for first, line in enumerate(lines):
        head = FUNCTION.match(line)
        if head:
            found.append((first, last_line(lines, first, head[1]), head[2]))
    return found


def last_line(lines, first, indent):
    """The last line of the function that begins in a line: its closing brace, or the end of a method without a body."""
    for at in range(first, len(lines)):
        if lines[at].rstrip().endswith(";") or at == first and lines[at].rstrip().endswith("}"):
            return at
        if lines[at].rstrip().endswith("{"):
            return next((it for it in range(at, len(lines)) if lines[it] == f"{indent}}}"), at)
    return first


def function_at(text, file, place):
    """The end of the name of the outermost function that holds a place, as a check tells it."""
    lines, line = text.split("\n"), text.count("\n", 0, place)
    inside = next((it for it in functions_in(lines) if it[0] <= line <= it[1]), None)
    if inside is None:
        return None
    first, _last, name = inside
    if lines[first].startswith(" "):
        return f"{type_above(lines, first)}::{name}"
    module = re.sub(r"^src/|\.rt$", "", file).split("/")[-1]
    return name if module in ("lib", "main", "mod") else f"{module}::{name}"


def functions_of(crate, texts):
    """The functions of a crate that have bodies, but for those of a cycle: their file, their lines there, their path below proofs/."""
    homes, own, files = {}, {}, {}
    for at, _folders, names in sorted(os.walk(f"{crate.folder}/src")):
        for name in sorted(it for it in names if it.endswith(".rt")):
            file = os.path.relpath(f"{at}/{name}", crate.folder)
            module = re.sub(r"^src/|\.rt$", "", file)
            text = texts.get(file) or text_of(crate, file)
            files[file] = ("" if module in ("lib", "main") else f"{module}/"), text.split("\n")
            # (a type's own methods stand at the place of the type, in whichever file they are written)
            own[file] = {it: files[file][0] for it in re.findall(r"^(?:pub(?:\([^)]*\))? )?(?:struct|enum) (\w+)", text, re.M)}
            homes |= own[file]
    for file, (module, lines) in files.items():
        for first, last, name in functions_in(lines):
            head = "\n".join(lines[max(0, first - 6) : first + 1])
            # (functions that call each other have one proof for all)
            if lines[last].rstrip().endswith(";") or "#[cycle" in head or lines[first].startswith("     "):
                continue
            owner = type_above(lines, first) if lines[first].startswith(" ") else ""
            path = ({**homes, **own[file]}.get(owner, module) + f"{owner}/" if owner else module) + name
            if re.fullmatch(r"[\w/]+", path):
                yield file, first, last, path


def body_of(lines, first, last):
    """The line of the brace that opens the body of a function, or None where it stands on one line."""
    indent = re.match(r" *", lines[first])[0]
    alone = next((at for at in range(first, last) if lines[at] == f"{indent}{{"), None)
    if alone is not None:
        return alone
    return next((at for at in range(first, last) if lines[at].endswith("{") and re.match(rf"{indent}\S", lines[at])), None)


def without_bodies(crate, functions, texts, kept):
    """The texts of all files of src/ with no body but those of these functions and those at the kept paths, and the paths of what lost its body."""
    found, gone = {}, set()
    for file, first, last, path in functions_of(crate, texts):
        if path in kept or any(f"::{path.replace('/', '::')}".endswith(f"::{it}") for it in functions):
            continue
        lines = found.setdefault(file, (texts.get(file) or text_of(crate, file)).split("\n"))
        opens = body_of(lines, first, last)
        gone.add(path)
        if opens is not None:
            # (lines stay where they are)
            lines[opens + 1 : last] = [re.match(r" *", lines[first])[0] + "    unreachable!()", *[""] * (last - opens - 2)]
    return {**texts, **{file: "\n".join(lines) for file, lines in found.items()}}, gone


def type_above(lines, line):
    """The type of the `impl` or the trait that a line stands in, with the trait behind it that it implements."""
    for at in range(line - 1, -1, -1):
        trait = re.match(r"(?:pub(?:\([^)]*\))? )?trait (\w+)", lines[at])
        if trait:
            return trait[1]
        if re.match(r"(?:unsafe )?impl\b", lines[at]):
            head = " ".join(lines[at:line]).split("{")[0].split(" where ")[0]
            head = head.split("impl", 1)[1]
            generics, head = split_generics(head)
            of, _, name = head.rpartition(" for ")
            subject, arguments = plain(name, generics)
            if not of:
                return "+".join([subject, *arguments])
            trait, of_what = plain(of, generics)
            return subject + "".join(arguments) + trait + "".join(of_what)
    return ""


def is_of_trait(lines, line):
    """Whether a method stands in a trait, or in what implements one."""
    begins = next((at for at in range(line, -1, -1) if re.match(r"(unsafe )?impl\b|(pub(\([^)]*\))? )?trait\b", lines[at])), line)
    return bool(re.search(r"\btrait\b|\sfor\s", " ".join(lines[begins:line]).split("{")[0]))


def plain(text, generics):
    """The last name of a type or a trait, `Any` for a parameter, and the types that it is of, as a check writes them."""
    name, arguments = re.match(r"\s*&?(?:'\w+ )?([\w:]+)\s*(?:<(.*)>)?", text).groups()
    is_parameter = lambda it: re.search(rf"[<,]\s*{re.escape(it)}\s*[:,>]", generics)
    given = [it.strip() for it in re.split(r",(?![^<]*>)", arguments or "")]
    types = [it for it in given if it and it[0] != "'" and not is_parameter(re.sub(r"<.*", "", it))]
    camel = lambda it: "".join(part[:1].upper() + part[1:] for part in re.sub(r"<.*", "", it).split("::"))
    inner = lambda it: "".join(plain(it, generics)[1]) if "<" in it else ""
    return "Any" if is_parameter(name) else name.split("::")[-1], [camel(it) + inner(it) for it in types]


def split_generics(head):
    """The parameters in angle brackets that a text begins with, and the rest."""
    if not head.startswith("<"):
        return "", head
    depth = 0
    for at, letter in enumerate(head):
        depth += (letter == "<") - (letter == ">" and head[at - 1] != "-")
        if depth == 0:
            return head[: at + 1], head[at + 1 :]
    return "", head


class Copy:
    """A copy of a function under a name of its own, with an edit of its body: another edit of the function is tried beside it."""

    def __init__(self, edit, number):
        """Raises a LookupError where the function can't be copied."""
        (function,), (file,) = edit.functions, {file for file, _old, _new in edit.pairs}
        old, new = (it.split("\n") for it in (text_of(edit.crate, file), edit.applied({})[0][file]))
        changed = [at for at, (one, other) in enumerate(zip(old, new)) if one != other]
        inside = [it[1:] for it in functions_of(edit.crate, {}) if it[0] == file and it[1] <= changed[0] and changed[-1] <= it[2]]
        first, last, path = inside[0]
        name, opens = path.rpartition("/")[2], body_of(old, first, last)
        is_method, top = old[first].startswith(" "), first
        while old[top - 1].strip().startswith(("//", "#[")):
            top -= 1
        call = rf"\b(self\.|Self::){name}\(" if is_method else rf"(?<![\w.:]){name}\("
        calls_itself = opens is None or re.search(call, "\n".join(old[opens + 1 : last]))
        is_known = f"::{path.replace('/', '::')}".endswith(f"::{function}") and len(old) == len(new) and opens and opens < changed[0]
        # (a closure's proof stands elsewhere; a trait has no method of such a name)
        has_closures = os.path.isdir(f"{edit.crate.folder}/proofs/{file[4:-3]}/fn")
        if not is_known or calls_itself or has_closures or is_method and is_of_trait(old, first) or old[top - 1].strip()[-1:] not in ("", "{"):
            raise LookupError(function)
        self.crate, self.file, self.last, self.path, self.name = edit.crate, file, last, path, f"{name}_again_{number}"
        self.function = function.removesuffix(name) + self.name
        self.text = re.sub(rf"\bfn {name}\b", f"fn {self.name}", "\n".join(new[top : last + 1]), count=1)
        self.proof = self.proof_of(name)

    def proof_of(self, name):
        """The files of the function's proof by their names, as a proof of the copy; each names the function's own modules."""
        folder, own, found = f"{self.crate.folder}/proofs/{self.path}", re.escape(self.path.replace("/", ".")), {}
        for file in os.listdir(folder) if os.path.isdir(folder) else []:
            with open(f"{folder}/{file}", encoding="utf-8") as it:
                text, count = re.subn(rf"(\.proofs\.{own})\b(?!-)", rf"\1{self.name.removeprefix(name)}", it.read())
            if not count:
                raise LookupError(f"{folder}/{file}")
            found[file] = re.sub(rf"\b{name}_spec\b", f"{self.name}_spec", text)
        return found

    def put(self, room):
        """Puts the proof of the copy into a folder."""
        folder = f"{room}/proofs/{self.path.rpartition('/')[0]}/{self.name}"
        for file, text in self.proof.items():
            os.makedirs(folder, exist_ok=True)
            with open(f"{folder}/{file}", "w", encoding="utf-8") as it:
                it.write(text)


class Group:
    """Edits of different functions, or of copies of one, which one check tries."""

    def __init__(self, assumes, copies=False):
        self.edits, self.functions, self.texts, self.is_alone = [], set(), {}, False
        # Whether the crate's other functions are taken by their contracts, unproved; then edits of one function may be copied.
        self.assumes, self.may_copy, self.copies = assumes, copies, {}
        # Whether a function that is meant was found among several of one name.
        self.is_renamed = False

    def takes(self, edit):
        """Adds the edit where it changes other functions than those that are here, and its texts still stand once."""
        if self.edits and self.edits[0].is_bare != edit.is_bare:
            return False
        if self.edits and (self.is_alone or edit.is_alone and not edit.functions):
            return False
        if edit.is_called and self.takes_copy(edit):
            return True
        changed, _why = edit.applied(self.texts)
        if changed is None or self.functions & edit.functions:
            return self.takes_copy(edit)
        self.texts, self.is_alone = changed, edit.is_alone and not edit.functions
        self.edits.append(edit)
        self.functions |= edit.functions
        # (an edit of a definition may change what those contracts say)
        self.assumes = self.assumes and not self.is_alone and all(file.startswith("src/") for file, _old, _new in edit.pairs)
        return True

    def takes_copy(self, edit):
        """Adds the edit to a copy of the function, where there can be one."""
        if not (self.assumes and self.may_copy and getattr(edit, "may_copy", True)):
            return False
        try:
            self.copies[edit.name] = Copy(edit, len(self.copies) + 1)
        except (LookupError, ValueError):
            return False
        self.edits.append(edit)
        self.functions.add(self.copies[edit.name].function)
        return True

    def functions_of(self, edit):
        """The functions that must be refused for an edit, as this check names them."""
        return {self.copies[edit.name].function} if edit.name in self.copies else edit.functions

    def with_copies(self, texts):
        """These texts, which have the lines of the sources, with the copies behind the functions that they are of."""
        for it in sorted(self.copies.values(), key=lambda it: -it.last):
            lines = (texts.get(it.file) or text_of(it.crate, it.file)).split("\n")
            texts = {**texts, it.file: "\n".join([*lines[: it.last + 1], "", *it.text.split("\n"), *lines[it.last + 1 :]])}
        return texts


def grouped(edits, assumes=True, copies=False):
    """The edits in as few groups as have different functions, or with copies of one.

    An edit of a function that another edit's function calls is made in a copy where there can be one: the other is then tried
    beside it, since what it calls stays as it was.
    """
    groups, words = [], [(edit.functions, edit.words()) for edit in edits] if copies else []
    for edit in edits:
        names = {it.rpartition("::")[2] for it in edit.functions}
        edit.is_called = any(names & found for functions, found in words if functions != edit.functions)
    for edit in edits:
        if not any(it.takes(edit) for it in groups):
            groups.append(Group(assumes, copies))
            if not groups[-1].takes(edit):
                raise ValueError(edit.applied({})[1])
    return groups
