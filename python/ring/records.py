"""What goes in and comes out, as typed records. P is the pump houses, Q the chambers."""
from typing import NamedTuple, Optional, Tuple


class Point(NamedTuple):
    id: int
    x: int
    y: int


class Key(NamedTuple):
    """A place in a list: (0, 0) is before every pair."""
    q: int
    p: int


class Pair(NamedTuple):
    """A ring pair: a chamber's id, a pump house's, and the squared distance of the two, along the streets for a list of the street grid."""
    q: int
    p: int
    size: int


class Source(NamedTuple):
    """What list a page or a book is of. `contractor` is 2 for an undivided list."""
    p_edition: int
    q_edition: int
    threshold: int = 0
    contractor: int = 2
    own: bool = False
    grid: bool = False


class Page(NamedTuple):
    source: Source
    key: Key
    pairs: Tuple[Pair, ...]
    end: bool


class Paged(NamedTuple):
    """A page, and beside it how many nodes were opened for it. The count is for the operator: it depends on the other contractor's chambers too. Hand on the page."""
    page: Page
    opened: int


class Many(NamedTuple):
    """Pairs of a list, one after the other, and whether more follow."""
    pairs: Tuple[Pair, ...]
    more: bool


class Rank(NamedTuple):
    """A chamber or a pump house, and how many pairs of the list it is in."""
    id: int
    pairs: int


class Visit(NamedTuple):
    """A pair of the list, and the sum of the scores of its two ends."""
    pair: Pair
    score: int


class Near(NamedTuple):
    """A pump house, and its squared distance to the chamber that was asked for."""
    id: int
    distance: int


class Partners(NamedTuple):
    """How many ring pairs a chamber has, or t where it has more, and whether that is t."""
    count: int
    enough: bool


class Why(NamedTuple):
    """Why two records are a pair or none. `kind` is `clear`, `point` or `side`. Where a point blocks, `record` is it; where the side of a box does, `box` is the box
    (xmin, ymin, xmax, ymax) of `node` and `side` says which: on it stands a record that blocks. `set` is `P` or `Q`."""
    kind: str
    set: Optional[str] = None
    record: Optional[Point] = None
    node: Optional[int] = None
    side: Optional[str] = None
    box: Optional[Tuple[int, int, int, int]] = None
    opened: int = 0

    @property
    def clear(self):
        return self.kind == "clear"


class Form(NamedTuple):
    """An order form. Its key is all but the size."""
    p_edition: int
    q_edition: int
    own: bool
    contractor: int
    grid: bool
    q: int
    p: int
    size: int


class Marker(NamedTuple):
    """The middle of two places, exactly."""
    x: float
    y: float
