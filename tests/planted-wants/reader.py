"""Where the code of a file makes a want: see tests/wants for what one is and where it may stand."""
import re

from rattle_tokens import Group, Leaf, Token, flat, is_group, line_of, parted, word_of

WANTS = {"OutOfMemory", "AllocError", "AllocFailed"}
# What OutOfMemory may be, beside `From` of the kit's own errors.
TRAITS = {"Display", "Error"}
DERIVES = {"Clone", "Copy", "Debug", "PartialEq", "Eq"}
# Items that end with braces or a semicolon, and those that end with a semicolon alone.
BY_BRACES = ("fn", "impl", "struct", "enum", "macro_rules")
BY_SEMICOLON = ("use", "const", "static", "type")
# What may stand before the `|` that begins a closure.
BEFORE_CLOSURE = (",", "=", "move", "return", "=>", ";", "(", "&&", "||")
# A file, a line, a function, and why a want is made there.
Place = tuple[str, int, str, str]


def has_want(tokens: list[Token]) -> bool:
    """Whether a want stands among the tokens, or inside their groups."""
    return any(word in WANTS for word, _ in flat(tokens))


def bare_wants(tokens: list[Token]) -> list[Leaf]:
    """The wants that stand without a path before them."""
    words = list(flat(tokens))
    return [one for place, one in enumerate(words)
            if one[0] in WANTS and (place == 0 or words[place - 1][0] != "::")]


def is_want(pattern: list[Token]) -> bool:
    """Whether a pattern fits nothing but a want. Of elements that a comma parts, one that is a want
    is enough."""
    elements = parted(pattern[:Reader.find(pattern, 0, "if")], ",")
    return any(fits_wants_alone(one) for one in elements)


def fits_wants_alone(element: list[Token]) -> bool:
    """Whether each alternative of an element has a want in it, and is one in each bracket that has
    one."""
    alternatives = parted(element, "|")
    return bool(alternatives) and all(
        has_want(one) and all(is_want(group.inside) for group in one
                              if isinstance(group, Group) and has_want(group.inside))
        for one in alternatives
    )


class Reader:
    """Reads the tokens of a file, and keeps the places at which a want is made.

    `known` has the wants that the file brings in, `called` the functions (with their files) that
    only the arm of a want may call.
    """

    def __init__(self, path: str, known: set[str], called: set[tuple[str, str]]) -> None:
        self.path, self.known, self.called, self.function = path, known, called, ""
        self.made: list[Place] = []

    def hands_on(self, pattern: list[Token]) -> bool:
        """Whether a pattern is a want; one that would bind a name is none."""
        for one in bare_wants(pattern):
            if one[0] not in self.known:
                self.make(one, "a name that is not brought in")
        return is_want(pattern)

    def make(self, token: Token, why: str = "made") -> None:
        """Keeps a place at which a want is made."""
        self.made.append((self.path, line_of(token), self.function, why))

    def items(self, tokens: list[Token], source: str = "") -> None:
        """Items one after another; `source` is the type that an `impl From` is from."""
        at = 0
        while at < len(tokens):
            word = word_of(tokens[at])
            if word == "#" and at + 1 < len(tokens) and is_group(tokens[at + 1], "["):
                if [w for w, _ in flat(tokens[at + 1].inside)] == ["cfg", "test"]:
                    at = self.behind_item(tokens, at + 2)
                else:
                    at += 2
            elif word == "use":
                end = self.find(tokens, at, ";")
                self.uses(tokens[at:end])
                at = end + 1
            elif word in ("struct", "enum", "union"):
                at = self.declared(tokens, at)
            elif word == "type":
                end = self.find(tokens, at, ";")
                if any(w in WANTS for w, _ in list(flat(tokens[at:end]))[-1:]):
                    self.make(tokens[at], "another name")
                at = end + 1
            elif word == "impl":
                at = self.implemented(tokens, at)
            elif word in ("trait", "mod", "extern") and self.opens(tokens, at) is not None:
                body = self.opens(tokens, at)
                self.items(tokens[body].inside)
                at = body + 1
            elif word == "fn":
                at = self.function_at(tokens, at, source)
            elif word in ("const", "static"):
                end = self.find(tokens, at, ";")
                start = self.find(tokens, at, "=")
                if word_of(tokens[min(at + 1, len(tokens) - 1)]) == "fn":
                    at += 1
                else:
                    self.expression(tokens[min(start, end):end], False)
                    at = end + 1
            elif word == "macro_rules":
                end = at
                while end < len(tokens) and not isinstance(tokens[end], Group):
                    end += 1
                if end < len(tokens):
                    self.expression(tokens[end].inside, False)
                at = end + 1
            else:
                if isinstance(tokens[at], Group):
                    self.expression(tokens[at].inside, False)
                at += 1

    @staticmethod
    def find(tokens: list[Token], at: int, sign: str) -> int:
        """Where a sign stands next, or the end."""
        while at < len(tokens) and word_of(tokens[at]) != sign:
            at += 1
        return at

    @staticmethod
    def opens(tokens: list[Token], at: int) -> int | None:
        """Where the braces of an item stand, or None where a semicolon ends it."""
        while at < len(tokens):
            if is_group(tokens[at], "{"):
                return at
            if word_of(tokens[at]) == ";":
                return None
            at += 1
        return None

    def behind_item(self, tokens: list[Token], at: int) -> int:
        """After the braces or the semicolon that end an item."""
        while at < len(tokens):
            if word_of(tokens[at]) == ";" or is_group(tokens[at], "{"):
                return at + 1
            at += 1
        return at

    def uses(self, tokens: list[Token]) -> None:
        """A `use`: no want may get another name."""
        words = list(flat(tokens))
        for place, (word, _) in enumerate(words):
            if word in WANTS and place + 1 < len(words) and words[place + 1][0] == "as":
                self.make(words[place], "another name")

    def declared(self, tokens: list[Token], at: int) -> int:
        """A type: what it derives may make no want. Returns the place after it."""
        name = word_of(tokens[at + 1])
        if name in WANTS:
            back = at - 1
            while back >= 0 and (is_group(tokens[back], "[") or is_group(tokens[back], "(")
                                 or word_of(tokens[back]) in ("#", "pub")):
                if is_group(tokens[back], "["):
                    words = [w for w, _ in flat(tokens[back].inside)]
                    if words[:1] == ["derive"] and not set(words[1:]) - {","} <= DERIVES:
                        self.make(tokens[at], "a derive that makes one")
                back -= 1
        end = self.behind_item(tokens, at + 1)
        inside = tokens[end - 1].inside if is_group(tokens[end - 1], "{") else []
        for place, token in enumerate(inside):
            if word_of(token) in WANTS and place > 0 and is_group(inside[place - 1], "["):
                if [w for w, _ in flat(inside[place - 1].inside)] == ["default"]:
                    self.make(token, "a derive that makes one")
        return end

    def implemented(self, tokens: list[Token], at: int) -> int:
        """An `impl`: its trait may make no want. Returns the place after it."""
        body = self.opens(tokens, at)
        if body is None:
            return len(tokens)
        header = [w for w, _ in flat(tokens[at:body])]
        parts = " ".join(header).split(" for ")
        target = parts[-1].split(" where ")[0].split()
        trait = parts[0] if len(parts) > 1 else ""
        found = re.search(r"\bFrom < (.*) >$", trait)
        source = ""
        if found:
            given = re.sub(r"< .* >$", "", found.group(1)).split()
            source = given[-1] if given and given[-1] in WANTS else ""
        if target and target[-1] in WANTS and not found:
            if not trait.split() or trait.split()[-1] not in TRAITS:
                self.make(tokens[at], "an impl that may make one")
        self.items(tokens[body].inside, source)
        return body + 1

    def function_at(self, tokens: list[Token], at: int, source: str) -> int:
        """A function: its types are not read, its body is."""
        outer, self.function = self.function, word_of(tokens[at + 1])
        body = self.opens(tokens, at)
        if body is None:
            self.function = outer
            return self.find(tokens, at, ";") + 1
        self.expression(tokens[body].inside, bool(source) and self.function == "from")
        self.function = outer
        return body + 1

    def expression(self, tokens: list[Token], handed: bool) -> None:
        """Code; where it is `handed`, it stands after a pattern that is a want."""
        at = 0
        while at < len(tokens):
            token = tokens[at]
            word = word_of(token)
            if word in BY_BRACES or word in BY_SEMICOLON:
                end = (self.behind_item(tokens, at) if word in BY_BRACES
                       else self.find(tokens, at, ";") + 1)
                self.items(tokens[at:end])
                at = end
            elif word == "match":
                at = self.matched(tokens, at, handed)
            elif word == "let":
                at = self.bound(tokens, at, handed)
            elif word == "matches" and at + 2 < len(tokens) and word_of(tokens[at + 1]) == "!":
                inside = tokens[at + 2].inside
                comma = self.find(inside, 0, ",")
                self.expression(inside[:comma], handed)
                at += 3
            elif word in ("==", "!="):
                at += 1
                while at < len(tokens) and re.match(r"\w|[&*]$|::$", word_of(tokens[at]) or ""):
                    at += 1
                behind = at < len(tokens) and word_of(tokens[at - 1]) not in ("==", "!=")
                if behind and isinstance(tokens[at], Group) and not is_group(tokens[at], "{"):
                    at += 1
            elif word == "|" and self.begins(tokens, at):
                at = self.closure(tokens, at, handed)
            elif word == "->":
                body = self.opens(tokens, at)
                at = len(tokens) if body is None else body
            elif word == "::" and at + 1 < len(tokens) and word_of(tokens[at + 1]) == "<":
                at = self.behind_angles(tokens, at + 1)
            elif isinstance(token, Group):
                self.expression(token.inside, handed)
                at += 1
            else:
                if word in WANTS and not handed:
                    self.make(token)
                elif self.calls_listed(tokens, at) and not handed:
                    self.make(token, "called outside the arm of a want")
                at += 1

    def calls_listed(self, tokens: list[Token], at: int) -> bool:
        """Whether a call of a listed function that makes a want for its callers stands here."""
        called = (self.path, word_of(tokens[at])) in self.called
        return called and at + 1 < len(tokens) and is_group(tokens[at + 1], "(")

    @staticmethod
    def begins(tokens: list[Token], at: int) -> bool:
        """Whether a `|` begins a closure."""
        return at == 0 or word_of(tokens[at - 1]) in BEFORE_CLOSURE

    def closure(self, tokens: list[Token], at: int, handed: bool) -> int:
        """A closure, of which the pattern may be a want. Returns the place after it."""
        end = self.find(tokens, at + 1, "|")
        handed = self.hands_on(self.untyped(tokens[at + 1:end])) or handed
        stop = self.find(tokens, end, ",")
        self.expression(tokens[end + 1:stop], handed)
        return stop

    @staticmethod
    def untyped(tokens: list[Token]) -> list[Token]:
        """A pattern without the type that is written after it."""
        for at, token in enumerate(tokens):
            if word_of(token) == ":":
                return tokens[:at]
        return tokens

    @staticmethod
    def behind_angles(tokens: list[Token], at: int) -> int:
        """After the angle bracket that closes the one at a place."""
        depth = 0
        while at < len(tokens):
            word = word_of(tokens[at])
            depth += {"<": 1, ">": -1}.get(word, 0)
            at += 1
            if depth == 0:
                break
        return at

    def bound(self, tokens: list[Token], at: int, handed: bool) -> int:
        """`let`, also after `if` and `while`: its pattern and type are not read."""
        behind_test = at > 0 and word_of(tokens[at - 1]) in ("if", "while", "&&")
        equals = at
        while equals < len(tokens) and word_of(tokens[equals]) not in ("=", ";"):
            equals += 1
        if not behind_test:
            return equals + 1
        pattern = tokens[at + 1:equals]
        body = self.opens(tokens, equals)
        if body is None:
            return equals + 1
        self.expression(tokens[equals + 1:body], handed)
        self.expression(tokens[body].inside, self.hands_on(pattern) or handed)
        return body + 1

    def matched(self, tokens: list[Token], at: int, handed: bool) -> int:
        """A `match`, arm by arm. Returns the place after it."""
        body = self.opens(tokens, at)
        if body is None:
            return at + 1
        self.expression(tokens[at + 1:body], handed)
        arms, here = tokens[body].inside, 0
        while here < len(arms):
            while here < len(arms) and word_of(arms[here]) == "#":
                here += 2
            arrow = self.find(arms, here, "=>")
            pattern = arms[here:arrow]
            guard = self.find(pattern, 0, "if")
            self.expression(pattern[guard:], handed)
            end = arrow + 1
            if end < len(arms) and is_group(arms[end], "{"):
                code, end = [arms[end]], end + 1
                if end < len(arms) and word_of(arms[end]) == ",":
                    end += 1
            else:
                stop = self.arm_end(arms, end)
                code, end = arms[arrow + 1:stop], stop + 1
            self.expression(code, self.hands_on(pattern) or handed)
            here = end
        return body + 1

    def arm_end(self, arms: list[Token], at: int) -> int:
        """Where the comma stands that ends an arm without braces."""
        while at < len(arms) and word_of(arms[at]) != ",":
            if word_of(arms[at]) == "::" and at + 1 < len(arms) and word_of(arms[at + 1]) == "<":
                at = self.behind_angles(arms, at + 1)
            else:
                at += 1
        return at
