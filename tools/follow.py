"""Follows a record on a board: looks for an order of overlapping calls in which the board answers as recorded, and reports where there
is none."""
from bisect import bisect_right
from itertools import islice

from board_model import GONE, HSM, WAITING, Board
from effects import PAGES
from forced import Forced
from records import Broken
from states import Choice, Open, State, is_excused

# How many steps back and forth are tried after a reply that no order at its place gives.
TRIES = 300
KEPT_CHOICES = 200
MOST_EVENTS = 1_000_000


class Follower(Forced):
    def __init__(self, record, maps=(), ignored=(), version=None):
        """maps: pairs (A, B): what a record has at A, this board has at B. ignored: names of what is passed over. version:
        of the specification by which answers are judged, where it isn't the firmware's own."""
        super().__init__(record, maps, ignored, version)
        # Lines at which the board does otherwise, as a rule excuses it: the search goes back behind these.
        self.excused = set()

    def first(self):
        """The state before the first line, with the board that its entry shows."""
        if not self.lines:
            raise Broken(1, "nothing was recorded")
        line = self.lines[0]
        return State(Board(self.record.harts, PAGES, MOST_EVENTS, line.hart, self.numbers.first(), line.numbers[2]))

    def follow(self):
        """Goes through the record, and returns the last state."""
        state, place, choices = self.first(), 0, []
        # Where no order was found: the place and the state there, the choices before it, how often another one was tried,
        # and whose choices are yet to be tried.
        stuck, others, kept, tries, about = None, [], [], 0, []
        while place < len(self.lines):
            choice = Choice(place, state, self.tried(state, place))
            following = choice.next()
            if following is not None:
                choices.append(choice)
                del choices[:-KEPT_CHOICES]
                state, place = self.settled(following), place + 1
                if stuck is not None:
                    tries += 1
                    stuck = None if place > stuck[0] else stuck
                continue
            if stuck is None:
                stuck, others, kept, tries, about = (place, state), choices, list(map(self.again, choices)), 0, self.about(place)
                choices = list(others)
            found = self.back(choices, about[0]) if tries < TRIES else None
            while found is None and len(about) > 1:
                choices, tries, about = list(others), 0, about[1:]
                found = self.back(choices, about[0])
            tries += 1
            if found is not None:
                state, place = self.settled(found[0]), found[1]
                continue
            place, before = stuck
            state = self.forced(before, place)
            if is_excused(before, state):
                self.excused.add(place)
            choices, stuck, place = kept if place in self.excused else [], None, place + 1
        return self.ended(state)

    def tried(self, state, place):
        """The ways in which a line can be; where there is none, the board does otherwise, if no order helps, or none was found before."""
        is_possible = False
        for following in self.ways(state, place):
            is_possible = True
            yield following
        if not is_possible and self.differs_in_each_order(state, place):
            yield self.forced(state, place)
        elif not is_possible and place in self.excused and is_excused(state, done := self.forced(state, place)):
            yield done

    def differs_in_each_order(self, state, place):
        """Whether the board answers a call otherwise by its numbers alone."""
        line = self.lines[place]
        call = Open(place, self.op_of(state, line)) if line.kind == "call" else state.calls.get(line.hart)
        shown = self.shown(call.place) if call and line.kind != "entry" else None
        if shown is None or call.op[1] == HSM:
            return False
        here = call.answer or state.board.copy().step(line.hart, call.op)
        return here[0] != "refused" and here != shown

    def again(self, choice):
        """A choice whose ways are those that are left now, whatever is tried meanwhile."""
        return Choice(choice.place, choice.state, islice(self.tried(choice.state, choice.place), choice.taken, None), choice.taken)

    def about(self, place):
        """The harts whose own lines may have been taken wrongly, where this line fits nowhere: the likeliest first, and then all."""
        line = self.lines[place]
        if line.kind == "ret":
            places = self.places[line.hart]
            call = self.lines[places[bisect_right(places, place) - 2]]
            if call.numbers[:2] in ((HSM, 0), (HSM, 2)):
                return [{call.numbers[2]}, {call.numbers[2], line.hart}, None]
        return [{line.hart}, None]

    def back(self, choices, about):
        """Another way at the last place that has one, of those of these harts."""
        while choices:
            place = choices[-1].place
            following = choices[-1].next() if about is None or self.lines[place].hart in about else None
            if following is not None:
                return following, place + 1
            choices.pop()
        return None

    def ended(self, state):
        """What had begun when the record ended: a call that isn't to return is done."""
        for hart, call in sorted(state.calls.items()):
            if call.answer is None and self.shown(call.place) in (GONE, WAITING):
                self.effect(state, hart)
        return state
