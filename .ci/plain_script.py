"""Plays scripts of `lj_script` on a plain book: what each has to print, also where one of its calls is refused memory. Scripts of
propagations, of texts and of faults aren't played here."""
from plain_book import Book, Refused, hints_and_groups, in_order, trimmed, words

NO_MEMORY = "Refused(NoMemory)"
NOT_PLAYED = "NoMemory"
ACCEPTED = {"drop": "Dropped", "bind": "Imported", "adopt": "Adopted", "leave": "Left"}


def call_of(word, tokens):
    """The call of a plain book that a command makes, and what it is handed behind the seat."""
    if word in ("submit", "enter"):
        word = {"d": "drop", "i": "import"}.get(tokens[1], "inside")
        tokens = tokens[2:] if word == "drop" else [token for token in tokens if token != "i"]
    numbers = [int(token) for token in tokens]
    if word in ("take", "inside"):
        end = numbers.index(0, 1)
        return word, (numbers[0], numbers[1:end], *hints_and_groups(numbers[end + 1 : -1]))
    if word == "import":
        return "bind", (numbers[0], numbers[1:-1])
    return word, (numbers[:-1],) if word == "drop" else numbers


class Player:
    """A script that is being played. The call of the number `refused` is refused memory, and so is the call of `play` of the number
    `unplayed`, whose events the next one plays. Where `is_unpublished`, the shared books' verdicts weren't published by the calls that
    made them."""

    def __init__(self, refused=None, unplayed=None, is_unpublished=False):
        self.refused, self.unplayed, self.is_unpublished = refused, unplayed, is_unpublished
        self.variables, self.clauses, self.book, self.way = 0, [], None, None
        self.out, self.waiting, self.calls, self.plays, self.is_new_verdict = [], [], 0, 0, False

    def play(self, text):
        for line in text.splitlines():
            word, *tokens = line.split() or ["#"]
            if word.startswith("#"):
                continue
            if word == "p":
                self.variables, self.clauses = int(tokens[1]), []
            elif word.lstrip("-").isdigit():
                self.clauses.append([int(token) for token in (word, *tokens[:-1])] if tokens else [])
            elif word in ("open", "events", "shared"):
                self.open(word, *map(int, tokens))
            elif hasattr(self, f"ask_{word}"):
                self.out += getattr(self, f"ask_{word}")(*map(int, tokens))
            elif self.way == "events":
                self.waiting.append((word, int(tokens[0]), tokens[1:]))
            else:
                self.out.append(self.call(word, int(tokens[0]), tokens[1:]))
        return self.out

    def open(self, way, seats, limit):
        self.way, self.book, self.waiting = way, Book(self.variables, self.clauses, seats, limit), []
        self.told, self.made = ([[] for _ in range(seats)] for _ in range(2))
        self.is_new_verdict = False

    def call(self, word, seat, tokens):
        """The reply to a call. Of a refused take nothing is pending then; of a refused commit the receipt, by a shared book and
        where it was refused memory by a book's own call."""
        name, values = call_of(word, tokens)
        is_there = seat < len(self.book.pending)
        before, pending, verdict = len(self.book.entries), is_there and self.book.pending[seat], self.book.verdict
        is_refused, self.calls = self.calls == self.refused, self.calls + 1
        try:
            reply = NO_MEMORY if is_refused else getattr(self.book, name)(seat, *values)
        except Refused as refused:
            reply = f"Refused({refused})"
        if is_there and reply.startswith("Refused") and name in ("take", "commit"):
            stays = name == "commit" and (self.way == "shared" or self.way == "open" and is_refused)
            self.book.pending[seat] = pending if stays else None
        self.is_new_verdict = self.book.verdict != verdict
        if self.way == "shared" and len(self.book.entries) > before:
            return self.keep(word, name, seat)
        return reply

    def keep(self, word, name, seat):
        """Keeps the token of a shared book's call, and tells its entry."""
        entry = self.book.entries[-1]
        self.made[seat].append(entry)
        if word == "enter":
            return "Entered"
        self.told[seat].append(entry)
        return f"{ACCEPTED.get(name, 'Added')} {entry}"

    def ask_formula(self):
        return [f"{self.variables}: {words(*(word for clause in self.clauses for word in (*in_order(clause), 0)))}"]

    def ask_show(self):
        return (self.play_events() if self.way == "events" else []) + self.book.show()

    def play_events(self):
        """The replies to the events that wait, or what a call of `play` that is refused memory prints."""
        is_refused, self.plays = self.plays == self.unplayed, self.plays + 1
        if is_refused:
            return [NOT_PLAYED]
        replies, self.waiting = [self.call(*event) for event in self.waiting], []
        self.way = "open"
        return replies

    def ask_candidates(self, literal):
        return [words("candidates", self.book.candidates(literal))]

    def ask_joint(self, seat, own):
        joint = self.book.joint(seat, own)
        return [f"joint {joint}" if joint else "no joint"]

    def ask_variable(self, seat, own):
        variable = self.book.variable(seat, own)
        return [f"variable {variable}" if variable else "none"]

    def ask_verified(self):
        return ["not verified" if self.book.verdict is None else f"verified {self.ask_formula()[0]}"]

    def ask_trim(self):
        if self.book.verdict is None:
            return ["no step adds the empty clause"]
        return [f"trimmed {step}" for step in trimmed(len(self.clauses), self.book.steps)]

    def ask_steps(self):
        return [f"step {step}" for step in self.book.steps]

    def ask_verdict(self):
        is_known = self.book.verdict is not None and not (self.is_unpublished and self.is_new_verdict)
        return [f"verdict {self.book.verdict}" if is_known else "no verdict"]

    def ask_count(self, seat):
        return [f"count {len(self.made[seat])}"]

    def ask_told(self, seat):
        return self.told[seat]

    def ask_close(self):
        self.way, self.book.pending = "open", [None] * len(self.book.pending)
        return ["confirmed" if told == made else "not confirmed" for told, made in zip(self.told, self.made)]


def refused_outputs(text):
    """What a script has to print, and what it may print instead: where one of its calls is refused memory for good, and where
    verdicts aren't published at once."""
    player = Player()
    right = player.play(text)
    others = [Player(number).play(text) for number in range(player.calls)]
    return right, {tuple(out) for out in [*others, Player(is_unpublished=True).play(text)]}


def unplayed_outputs(text):
    """What a script may print where one of its calls of `play` is refused memory, if it has any."""
    player = Player()
    player.play(text)
    return {tuple(Player(unplayed=number).play(text)) for number in range(player.plays)}
