"""Random scripts: small tables, many ties, small stores, and now and then a line that is refused."""

BLANK_COMMANDS = ["", "  ", "\t"]
ODD_LINES = ["as 1 jump", "as 1 update 1", "as x room", "as 256 room", "as 0 room", "as 9 scan", "as 1 get", "AS 1 room", "as 1 scan now", "as 1 get 18446744073709551616",
             "as 1 commit", "as 1 commit insert 1;", "as 2 commit delete 1; jump", "as 1 begin", "as 1 delete 1 2", "as\t1\troom\t", " as 001 room "]
EDGES = [-2**63, 2**63 - 1, -2**63 + 1, 0]


class Scripts:
    def __init__(self, random):
        self.random = random
        self.columns = random.sample(["x", "y", "z", "low", "by", "distinct", "min", "end.1"], random.randint(1, 4))
        self.values = random.choice([3, 3, 8, 1000])
        self.clients = random.randint(1, 4)
        self.capacity = random.randint(1, 12)
        self.block = random.randint(1, 14)
        self.window = random.choice([1, 1, 2, 3, 64])

    def options(self):
        return ["--clients", self.clients, "--cap", self.capacity, "--block", self.block, "--window", self.window]

    def number(self):
        if self.random.random() < 0.03:
            return self.random.choice(EDGES)
        return self.random.randint(-1, self.values)

    def column(self):
        return self.random.choice(self.columns)

    def listed(self, read, most=3):
        return ", ".join(str(read()) for _ in range(self.random.randint(1, most)))

    def base(self):
        column, left = self.column(), self.number()
        return self.random.choice([
            f"low({column})", f"high({column})", f"low({column})", f"high({column})", f"around({column}, {left})", f"pos({column}, {self.listed(self.number)})",
            f"between({column}, {left}, {min(left + self.random.randint(0, 3), 2**63 - 1)})",
            f"layered({column}, {self.listed(lambda: '{' + self.listed(self.number) + '}')})",
        ])

    def term(self, depth):
        if depth == 0 or self.random.random() < 0.25:
            return self.base()
        form = self.random.choice(["{} * {}", "{} * {}", "{} & {}", "({}) & ({})", "({}) * ({})", "-({})", "reverse({})", "-{}", "({})"])
        return form.format(self.term(depth - 1), self.term(depth - 1)) if form.count("{}") == 2 else form.format(self.term(depth - 1))

    def clause(self):
        distinct = self.random.choice(["", "distinct ", "DISTINCT "])
        return f"skyline of {distinct}" + self.listed(lambda: f"{self.column()} {self.random.choice(['min', 'max', 'MIN', 'diff'])}", 4)

    def question(self):
        if self.random.random() < 0.3:
            return self.clause()
        mode = self.random.choice(["best", "best", f"top_level {self.random.randint(1, 4)}", f"at_least {self.random.randint(1, 6)}"])
        group = f" by {self.listed(self.column, 2)}" if self.random.random() < 0.3 else ""
        return f"{mode} {self.term(self.random.randint(0, 4))}{group}"

    def spoiled(self, text):
        """The text with one byte taken out, put in or doubled."""
        place = self.random.randrange(len(text) + 1)
        return text[:place] + self.random.choice(["", "", "(", ")", ",", "&", "-", "{", "q", "9", "\x0b", text[place:place + 1]]) + text[place + self.random.randint(0, 1):]

    def row(self, odd=0.03):
        """The cells of a row; with this chance each there is a cell too many, or one that is odd."""
        fields = [str(self.number()) for _ in self.columns]
        if self.random.random() < odd:
            fields.append("7")
        if self.random.random() < odd:
            fields[-1] = self.random.choice(["1.5", "", " 3 ", "+4", "007", "NA", "9223372036854775808"])
        return ",".join(fields)

    def id(self):
        return self.random.randint(1, self.capacity + 6)

    def change(self):
        return self.random.choice([f"insert {self.row()}", f"update {self.id()} {self.row()}", f"delete {self.id()}"])

    def command(self):
        chance = self.random.random()
        client = self.random.randint(1, self.clients)
        if chance < 0.04:
            return self.random.choice(ODD_LINES + BLANK_COMMANDS)
        if chance < 0.25:
            question = self.question()
            return f"as {client} begin {self.spoiled(question) if self.random.random() < 0.15 else question}"
        if chance < 0.33:
            return f"as {client} commit {'; '.join(self.change() for _ in range(self.random.choice([1, 2, 2, 3, 4, 8, 9])))}"
        if chance < 0.6:
            return f"as {client} {self.change()}"
        if chance < 0.85:
            return f"as {client} {self.random.choice(['scan', 'scan', 'scan', 'finish', 'abandon'])}"
        return f"as {client} {self.random.choice(['room', f'get {self.id()}'])}"

    def whole_query(self):
        client = self.random.randint(1, self.clients)
        blocks = -(-self.capacity // self.block)
        return [f"as {client} begin {self.question()}", *[f"as {client} scan"] * blocks, f"as {client} finish"]

    def script(self):
        rows = [self.row(odd=0.003) for _ in range(self.random.randint(0, self.capacity + (self.random.random() < 0.02)))]
        lines = ["table", ",".join(self.columns), *rows, "end"]
        for _ in range(self.random.randint(5, 40)):
            lines += self.whole_query() if self.random.random() < 0.2 else [self.command()]
        end = self.random.choice(["\n", "\n", "\n", "\r\n"])
        return (end.join(lines) + self.random.choice(["", end])).encode()
