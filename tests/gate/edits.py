"""What a must-fail edit changes, and whether a contract refuses it. `tests/run_ci` stands on it, and what an earlier
run came to counts only while this file is the same."""

import re

import rattle
from rattle import module_of, path_of, text_of

# what the prover says where a proof names a step that the edit took away, which tells nothing of the contract
GONE = re.compile(r"has no field|is not in scope|has no `|was not admitted")
# an open goal, and whether the prover knows values where it is false; what comes of a function; an error in a proof
GOAL = re.compile(r"note: src/\S+: it is not proved that .*\(`([^`]+)`\)(.*)")
VERDICT = re.compile(r"fn \w+::(\S+): (.*)")
ERROR = re.compile(r"(?:\./)?proofs/(\S+)/\w+\.antt:\d+:\d+: error: (?:`([^`]+)`: )?(.*)")
UNPROVED = re.compile(r"did not prove (.*)")
# goals that any body owes, whatever its contract: sums fit, divisors are not 0, indices are within, loops end
OWN = r"(?!returns\b|invariant_of\b).*"
SAFETY = re.compile(rf"overflow_|nonzero_|(?:offset_|slice_)?bounds\b|index\b|decreases|{OWN}-smaller\b")
# goals that a call asks for, which tell of the contract of what is called
PREMISE = re.compile(rf"{OWN}-requires\b")
# how a list beside an edit says that a function is refused by such a goal alone
BY_PREMISE = "by a premise of a call: "


def listed(edit):
    """Returns the functions that the edit turns, or none where it has no list."""
    return [line.strip().removeprefix(BY_PREMISE) for line in text_of(edit.removesuffix(".edit") + ".md").splitlines()
            if line.strip()]


def wanted(edit, function):
    """What kind of goal has to be open in a function that the edit turns: its contract's, or a call's by its list."""
    told = re.findall(rf"^\s*{BY_PREMISE}(\S+)\s*$", text_of(edit.removesuffix(".edit") + ".md"), re.M)
    return "premise" if any(f"::{function}".endswith(f"::{it}") for it in told) else "contract"


def kind_of_goals(names):
    """What open goals tell of: the contract of their function, a premise of a call, or nothing but safety."""
    some = [it for it in names if not SAFETY.match(it)]
    return "contract" if any(not PREMISE.match(it) for it in some) else "premise" if some else ""


class Said:
    """What the prover said of a crate's functions, which are named without the crate."""

    def __init__(self, output):
        self.came, self.goals, self.errors = {}, {}, []
        goals = []
        for line in output.splitlines():
            if goal := GOAL.match(line):
                goals.append((goal[1], "allow values" in goal[2]))
            elif verdict := VERDICT.match(line):
                self.came[verdict[1]], self.goals[verdict[1]], goals = verdict[2], goals, []
            elif error := ERROR.match(line):
                self.errors.append((error[1], error[2], bool(GONE.search(error[3]))))

    def refuses(self, function):
        """By what the function itself is refused: a goal of its contract or of an invariant, a premise of a call alone,
        or nothing: goals of safety tell nothing of a contract. Where a written proof of it names what is gone, only an
        answer that names nothing of the kind and does not fit, or a goal that is false at known values, tells that."""
        mine = [(name, is_gone) for folder, name, is_gone in self.errors if folder == function.replace("::", "/")]
        gone = {name for name, is_gone in mine if is_gone}
        misfit = [name for name, _ in mine if name and name not in gone]
        goals = [(name, is_false) for name, is_false in self.goals.get(function, []) if not SAFETY.match(name)]
        if (kind := kind_of_goals([*misfit, *(name for name, is_false in goals if is_false or not gone)])) or gone:
            return kind
        # (the verdict may say that there is no proof, for a reason of its own beside goals of safety)
        came = self.came.get(function, "")
        named = [name for it in UNPROVED.findall(came) for name in re.findall(r"`([^`]+)`", it)]
        is_own = came.startswith("no proof: ") and not came.startswith("no proof: it calls")
        return ("contract" if not [*named, *self.goals.get(function, [])] else kind_of_goals(named)) if is_own else ""

    def others(self, functions):
        """Returns which functions beside these are refused, for whatever reason."""
        return [it for it in self.came if it not in functions and (self.refuses(it) or self.goals[it])]

    def proves_beside(self, functions):
        """Returns whether a function beside these is proved."""
        return any(came == "proved" for it, came in self.came.items() if it not in functions)


def stated(text):
    """What a source says beside the code of its bodies: its text without them, and clauses, functions and proofs."""
    source, rest, at = rattle.source_of(text), [], 0
    for it in source.functions:
        if it.opens >= 0:
            inside = source.plain[it.opens : it.closes]
            clauses = [source.plain[one.start() : source.end_of(one.end())]
                       for one in rattle.CLAUSE.finditer(source.plain, it.opens, it.closes)]
            rest += [text[at : it.opens], *clauses, *re.findall(r".*(?:\bfn \w|#\[|prove!).*", inside)]
            at = it.closes
    return [*rest, text[at:]]


def changed(rt, edit, folder):
    """Returns the paths of the functions whose bodies the edit changes, or what is wrong with it: an edit that changes
    anything else shows nothing of a contract."""
    paths, file = set(), ""
    for line in text_of(edit).splitlines():
        if line.startswith("file: "):
            file = line.removeprefix("file: ").strip()
        elif line.startswith("old: "):
            old = line.removeprefix("old: ")
            place = text_of(f"{folder}/{file}").find(old)
            begins, ends = place + len(old) - len(old.lstrip()), place + len(old.rstrip())
            some = [path_of(it, file, folder) for name, _,
                    it in rattle.bodies(folder) if name == file and it.opens <= begins and ends <= it.closes]
            if place < 0 or not some or not some[0]:
                return [], f"this stands in no body of {file}: {old.strip()[:80]}"
            paths.add(some[0])
    texts, why = rt.read_edit(edit, folder)
    if why:
        return [], why
    for file, text in texts.items():
        if stated(text) != stated(text_of(f"{folder}/{file}")):
            return [], f"it changes more of {file} than what bodies do"
    told = listed(edit)
    found = [[path for path in paths if f"::{path}".endswith(f"::{it}")] for it in told]
    if told and (len(told) != len(paths) or any(len(it) != 1 for it in found)):
        return [], f"its list is not of just what it changes: {', '.join(sorted(paths))}"
    return sorted(paths), None


def public(folder):
    """The functions that a crate shows, those of traits too, by their paths. A program shows its modules to itself."""
    tree, found = rattle.tree(folder), {}
    lib = tree["src/lib.rt"][0] if "src/lib.rt" in tree else None
    shown = rattle.shown(lib)[0] if lib else {}
    for file, (source, is_test) in tree.items():
        for it in source.functions:
            path = None if is_test or it.is_test or not it.is_public else path_of(it, file, folder)
            is_whole = not lib or not module_of(file) or shown.get(module_of(file)[0]) == set()
            if path and (is_whole or (it.owner or it).name in shown.get(path.split("::")[0], ())):
                found[path] = it
    return found


def wants_edit(function):
    """Whether a function of a type or a module gives something back or changes something that an edit can turn."""
    is_body = function.sees == "pub" and function.opens >= 0
    return is_body and bool(re.search(r"->|&\s*(?:'\w+ )?mut|Cell<", function.takes))


# relations that leave one result and one new state for each argument; functions under one of them are of one kind
RELATIONS = {"ReadsPartBy"}
EQUATION = re.compile(r"(result(?:\.now)?|(\w+)\.new) ≡ (.*)")


def ensured(function):
    return [" ".join(it.text.split()) for it in function.clauses if it.kind == "ensures"]


def kind_of(function):
    """What kind of contract a function has where that leaves one value for whatever it gives and changes: "equations",
    if each is equal to what its arguments determine, or the relation that says so; else None. Any body that gives
    another value is refused at such a clause by logic alone, so one edit of a kind shows what there is to show."""
    clauses = ensured(function)
    relations = {it.split(" ")[0] for it in clauses} & RELATIONS
    if relations and len(clauses) == 1:
        return relations.pop()
    pinned = {it[1] for it in map(EQUATION.fullmatch, clauses) if it
              and not re.search(r"\bresult\b|\.new\b|[→⊎⊥]", it[3])}
    due = {f"{name}.new" for name in re.findall(r"(\w+): &(?:'\w+ )?mut |&mut (self)", function.takes) for name in name
           if name}
    is_given = "result" in pinned or "result.now" in pinned
    return "equations" if clauses and (is_given or "->" not in function.takes) and due <= pinned else None


def says(function):
    """Whether a clause of the contract says more of what the function gives or leaves than that it is itself."""
    return any(re.search(r"\bresult\b|\.new\b", it) and not re.fullmatch(r"\s*(.*?)\s* ≡ \s*\1\s*", it)
               for it in ensured(function))
