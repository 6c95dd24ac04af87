"""Whether a clause of a contract states anything, and whether a law pins a definition (for `tests/gate/believed`).

A clause states something if, with the names in it unfolded, something is left that could be false: not `Unit {0}`, an
equation of one text with itself, a sum that is at least a part of it, a premise of the clause itself, or an equation in
which only std and the clause's own variables have a word; and if no premise of it is one that nothing meets, as a
length below 0 or a member of the empty list.

A law pins a definition if a clause of it is, for all arguments and without a premise but `IsBytes`, an equation or an
equivalence of the definition, or of a field that it gives, at these arguments with words that do not lean on it."""

import re

from rattle import TOKEN

OPENS, CLOSES = {"(": ")", "{": "}", "[": "]", "⟦": "⟧"}, {")", "}", "]", "⟧"}

# types that hold values, and state nothing by having one
VALUES = {"Unit", "⊤", "ℕ", "ℤ", "List", "Bool", "Option", "Char", "String", "Type", "Result", "Array", "FinMap"}
# relations that hold of anything and itself
REFLEXIVE = ("↔", "≡", "≤", "≥", "∼")
RELATIONS = (*REFLEXIVE, "≢", "<", ">")
# the premise under which a law still speaks of every argument: there are no other lists on the wire
DOMAINS = {("nfs_xdr", "Text", "IsBytes")}


def tokens_of(text):
    return TOKEN.findall(text)


def split(tokens, sign):
    """The parts of a text between the places of a sign that stand in no brackets and under no λ."""
    parts, depth, is_under = [[]], 0, False
    for it in tokens:
        depth += (it in OPENS) - (it in CLOSES)
        is_under = is_under or (it == "λ" and not depth)
        if it == sign and not depth and not is_under:
            parts.append([])
        else:
            parts[-1].append(it)
    return parts


def groups(tokens):
    """The words of a text, each with what stands in its brackets, and a field with what it is taken of."""
    found, depth = [], 0
    for it in tokens:
        if depth or (it.startswith(".") and len(it) > 1 and found):
            found[-1].append(it)
        else:
            found.append([it])
        depth += (it in OPENS) - (it in CLOSES)
    return found


def bare(tokens):
    """The text without brackets round the whole of it."""
    is_whole = len(tokens) > 1 and tokens[0] == "(" and tokens[-1] == ")" and len(groups(tokens)) == 1
    is_more = is_whole and not split(tokens[1:-1], ",")[1:] and not is_binder(tokens)
    return bare(tokens[1:-1]) if is_more else tokens


def is_binder(part):
    """Whether a part of a type only gives names to values, as `(x y : A)` does."""
    found = groups(part)
    return bool(found) and all(it[0] in "({" and it[-1] in ")}" and len(split(it[1:-1], ":")) == 2 for it in found)


def bound(part):
    """The names that such a part gives."""
    return [name for it in groups(part) for name in split(it[1:-1], ":")[0]]


def premises_of(tokens):
    """The names bound in front of a statement, its premises, and what it concludes."""
    names, premises, (*front, last) = [], [], split(bare(tokens), "→")
    for part in front:
        if is_binder(part):
            names += bound(part)
        else:
            premises.append(bare(part))
    return names, premises, bare(last)


def relation(tokens, signs):
    """The first of these signs that relates two texts, and those; or none."""
    return next(((sign, *map(bare, sides)) for sign in signs if len(sides := split(tokens, sign)) == 2), ("", [], []))


def is_always(tokens):
    """Whether a relation says no more than that something is itself, or that a sum is at least a part of it."""
    sign, left, right = relation(tokens, REFLEXIVE)
    less, more = (right, left) if sign == "≥" else (left, right)
    is_sum = less == ["0"] or more[: len(less) + 1] == [*less, "+"] or more[-len(less) - 1 :] == ["+", *less]
    return bool(sign) and (left == right or sign in "≤≥" and is_sum)


def is_absurd(tokens):
    """Whether a relation says that something is above itself."""
    sign, left, right = relation(tokens, "≡≢<≤")
    is_more = lambda more, less: more[:-1] == [*less, "+"] and bool(re.fullmatch("[1-9]\\d*", more[-1]))
    return bool(sign) and (sign in "≢<" and left == right or sign in "≡<≤" and is_more(left, right) or sign == "≡"
                           and is_more(right, left))


def equations(one):
    """The equations of a definition, each as its patterns and its text; none where it has no such."""
    found = []
    for line in one.lines:
        if re.match(rf"{re.escape(one.name)}(?=\s)(?!\s*:).*? =(?=\s|$)", line):
            found.append([line])
        elif found and line.startswith((" ", "\t", ")", "}")):
            found[-1].append(line)
    for lines in found:
        left, _, right = " ".join(lines).partition(" = ")
        yield groups(tokens_of(left))[1:], tokens_of(right)


def parts_of_record(one):
    """The names that a record takes, and the types of its fields by their names."""
    head, _, rest = " ".join(one.lines).partition(" where")
    names = [name for it in groups(tokens_of(head)) if is_binder(it) for name in bound(it)]
    fields = re.split(r"(?:^|\s)pub (\S+) :(?=\s)", rest)[1:]
    return names, {name: tokens_of(said) for name, said in zip(fields[::2], fields[1::2])}


def constructors(one):
    """The types of a data type's constructors."""
    rest = " ".join(one.lines).partition(" where")[2]
    found = re.split(r"(?:^|\s)\|?\s*([^\s(){}:]+) :(?=\s)",
                     re.sub(r"\([^()]*:[^()]*\)", lambda it: it[0].replace(" : ", " ∶ "), rest))
    return [tokens_of(it.replace(" ∶ ", " : ")) for it in found[2::2]]


class Statements:
    """What statements over a repository's definitions come to."""

    def __init__(self, definitions):
        self.all = definitions

    # Whether something is stated.

    def states(self, text, imports, std):
        """Whether a clause of a source states anything."""
        return self.says(tokens_of(text), self.scope_of(imports, std), (), ())

    def is_of_nothing(self, text, imports, std):
        """Whether a clause is for every ghost value of a type that has none."""
        return self.is_never(tokens_of(text), self.scope_of(imports, std), ())

    def scope_of(self, imports, std):
        return lambda word: self.found(imports, None, word), std, frozenset()

    def found(self, imports, own, word):
        """The definition that a word stands for, if any."""
        first, *more = word.strip(".").split(".")
        if own and first in self.all.names[own]:
            return self.all.names[own][first]
        for home, name in imports.get(first, ()):
            if one := self.all.at((home, name or (more[0] if more else None))):
                return one
        return None

    def scope(self, file):
        return lambda word: self.found(self.all.imports[file], file, word), self.all.std[file], frozenset()

    @staticmethod
    def types_in(one):
        """The types of a record's fields or of a data type's constructors, or the texts of a definition's equations."""
        if one.is_record:
            return [*parts_of_record(one)[1].values()]
        return constructors(one) if one.is_data else [right for _, right in equations(one)]

    def says(self, tokens, scope, seen, known):
        """Whether a type can be empty as far as its text tells, where these are known to hold."""
        tokens = bare(tokens)
        if tokens[:1] == ["λ"]:
            ends = next((at for at, it in enumerate(tokens) if it.endswith(".") or it == "."), 0)
            return self.says(tokens[ends + 1 :], scope, seen, known)
        if tokens[:1] == ["let"] and "in" in tokens:
            return self.says(tokens[tokens.index("in") + 1 :], scope, seen, known)
        some = split([";" if it in ("then", "else") else it for it in tokens], ";")
        if tokens[:1] == ["if"] and len(some) == 3:
            return any(self.says(it, scope, seen, known) for it in some[1:])
        names, premises, last = premises_of(tokens)
        if premises or len(split(tokens, "→")) > 1:
            within = (*scope[:2], scope[2] | set(names))
            return not any(self.is_never(it, scope, ()) for it in premises) and self.says(
                last, within, seen, (*known, *premises))
        if tokens in known or not tokens:
            return False
        if len(some := split(tokens, "⊎")) > 1:
            return all(self.says(it, scope, seen, known) for it in some)
        if len(parts := split(tokens, "×")) > 1:
            within = (*scope[:2], scope[2] | {name for it in parts if is_binder(it) for name in bound(it)})
            return any(self.says(it, within, seen, known) for it in parts if not is_binder(it))
        if relation(tokens, REFLEXIVE)[0]:
            return not is_always(tokens) and not self.is_closed(tokens, (*scope[:2], () if known else scope[2]))
        return self.applies(tokens, scope, seen, known)

    def is_closed(self, tokens, scope):
        """Whether only std, and variables of the clause, have a word in a text: it holds or not without the project."""
        words = [it for it in tokens if re.match(r"[^\W\d]|‹|«", it) and it.split(".")[0] not in scope[1]]
        return not any((it not in VALUES and it not in scope[2]) or scope[0](it) for it in words)

    def is_never(self, tokens, scope, seen):
        """Whether a premise is one that nothing meets, as far as its text tells."""
        names, _, last = premises_of(tokens)
        tokens = bare(tokens)
        is_empty = tokens[:1] == ["In"] and ["[", "]"] in (tokens[-2:], tokens[1:3])
        is_below = tokens[-2:] in (["<", "0"], ["<", "zero"])
        if is_empty or is_below or last in ([it] for it in names) or tokens == ["⊥"] or is_absurd(tokens):
            return True
        if any(it in tokens for it in RELATIONS) and self.is_closed(tokens, (*scope[:2], ())):
            return True
        if len(parts := split(tokens, "×")) > 1:
            return any(self.is_never(it, scope, seen) for it in parts if not is_binder(it))
        one = scope[0](tokens[0]) if tokens and "→" not in tokens and "⊎" not in tokens else None
        if not one or one in seen:
            return False
        some = self.types_in(one)
        if one.is_data:
            return not some
        is_one = one.is_record or len(some) == 1
        return is_one and any(self.is_never(it, self.scope(one.file), (*seen, one)) for it in some)

    def is_hollow(self, one):
        """Whether a part of a definition is true of everything, or has a premise that nothing meets."""
        return any(self.has_hollow(it, self.scope(one.file)) for it in self.types_in(one))

    def has_hollow(self, tokens, scope):
        _, premises, last = premises_of(tokens)
        parts = [it for sign in "×⊎" for some in [split(last, sign)] if len(some) > 1 for it in some
                 if not is_binder(it)]
        if any(self.is_never(it, scope, ()) for it in premises) or any(self.has_hollow(it, scope) for it in parts):
            return True
        return not parts and is_always(last)

    def applies(self, tokens, scope, seen, known):
        """The same of a name with its arguments."""
        head, *arguments = groups(tokens)
        if len(head) == 1 and (one := scope[0](head[0])):
            return self.unfolds(one, arguments, seen)
        if head[0] in VALUES or head != ["⊥"] and self.is_closed(tokens, (*scope[:2], ())):
            return False
        under = [it[1:-1] for it in arguments if it[:2] == ["(", "λ"]]
        return any(self.says(it, scope, seen, known) for it in under) if under else True

    def unfolds(self, one, arguments, seen):
        """The same of a definition at its arguments, of which is known only which are alike."""
        if one in seen:
            return False
        seen, scope = (*seen, one), self.scope(one.file)
        given = [["‹" + " ".join(bare(it)) + "›"] for it in arguments if it[0] != "{"]
        if one.is_record:
            names, fields = parts_of_record(one)
            return any(self.says(put(it, dict(zip(names, given))), scope, seen, ()) for it in fields.values())
        if one.is_data:
            names = bound([it for some in groups(tokens_of(" ".join(one.lines).partition(" where")[0]))
                           if is_binder(some) for it in some])
            return all(self.asks(put(it, dict(zip(names, given))), scope, seen) for it in constructors(one))
        # (what the names of an equation stand for at these arguments)
        names = lambda left: {it[0]: arg for it, arg in zip((it for it in left if it[0] != "{"), given) if len(it) == 1}
        return any(self.says(put(right, names(left)), scope, seen, ()) for left, right in equations(one))

    def asks(self, tokens, scope, seen):
        """Whether a constructor is of some values alone, by a premise that states something or by its arguments."""
        names, premises, last = premises_of(tokens)
        arguments = [it for it in groups(last)[1:] if it[0] != "{"]
        free = [it[0] for it in arguments if len(it) == 1 and (it[0] in names or it[0].startswith("‹"))]
        return len(set(free)) < len(arguments) or any(self.says(it, scope, seen, ()) for it in premises)

    # Whether a law pins a definition.

    def pinned_by(self, one, text, imports):
        """What a clause of a law pins of a definition, or none: the name of a field, or "" for the whole; the words in
        its place; and the definitions that state it, by their names, of which the last has the words in its file: in
        the law's own source where there is none."""
        statements, tokens, named = [], tokens_of(text), lambda word: self.found(imports, None, word)
        alone = lambda: groups(bare(tokens))
        while [len(it) for it in alone()] == [1] and (said := named(alone()[0][0])) and said != one:
            some = [*equations(said)]
            if len(some) != 1 or some[0][0] or said.is_record or said.is_data or said in statements:
                return None
            statements.append(said)
            tokens, named = some[0][1], self.scope(said.file)[0]
        names, premises, last = premises_of(tokens)
        # (a law may be of fewer arguments than a definition that has more in front of these)
        is_for_all = all(self.is_domain(it, named, names) for it in premises)
        is_whole = "{" not in one.lines[0] and not one.within and is_for_all
        sign, *sides = relation(last, "↔≡")
        for subject, other in (sides, sides[::-1]) if sign and is_whole else ():
            field = self.is_at_all(one, subject, named, names)
            if field is None and sign == "↔":
                field = self.is_equation_of(one, subject, named, names)
            if field is not None:
                return field, [" ".join(other), " ".join(
                    word for part in split(bare(tokens), "→")[:-1] for word in part)], statements
        return None

    def is_domain(self, premise, named, names):
        it = named(premise[0])
        return len(premise) == 2 and premise[1] in names and bool(it) and (*it.file, it.name) in DOMAINS

    def is_at_all(self, one, side, named, names):
        """The field, or "" for the whole, where a side is the definition at bound names, each another; else None."""
        found, field = groups(side), ""
        it = found[0] if len(found) == 1 else []
        if len(it) > 2 and it[0] == "(" and it[-2] == ")" and re.fullmatch(r"\.\w+", it[-1]):
            field, found = it[-1][1:], groups(it[1:-2])
        head, *arguments = found
        is_it = len(head) == 1 and "." not in head[0] and named(head[0]) is one
        variables = [it[0] for it in arguments if len(it) == 1 and it[0] in names]
        return field if is_it and len(variables) == len(arguments) == len(set(variables)) else None

    def is_equation_of(self, one, side, named, names):
        """The same where a side says that the definition's value is bound too, bare or behind a constructor."""
        sign, *sides = relation(side, "≡")
        for subject, value in (sides, sides[::-1]) if sign else ():
            field, (*constructor, last) = self.is_at_all(one, subject, named, names), value
            if field is not None and last in names and last not in subject and constructor in ([], ["Some"]):
                return field
        return None


def put(tokens, given):
    """The text with these in place of names."""
    found = []
    for it in tokens:
        first, dot, rest = it.partition(".")
        found += [*given[first], *([dot + rest] if rest else [])] if first in given else [it]
    return found
