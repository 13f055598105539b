"""A job from a Matrix Market file and a right side."""
from job_bytes import Fields, MOST_FIELDS, Row, is_finite
from job_text import BadText, Checks, value, whole


class Market:
    """A Matrix Market file: height, width, and its places as a mapping from (row, column) to bits."""

    def __init__(self, text):
        self.lines = [(number, line.split()) for number, line in enumerate(text.splitlines(), 1)]
        if not self.lines:
            raise BadText(1, "the file is empty")
        line, head = self.lines[0]
        words = [word.lower() for word in head]
        if len(words) != 5 or words[:2] != ["%%matrixmarket", "matrix"]:
            raise BadText(line, "a Matrix Market file begins with '%%MatrixMarket matrix FORMAT KIND SYMMETRY'")
        self.form, self.kind, self.symmetry = words[2:]
        for word, known in ((self.form, ("coordinate", "array")), (self.kind, ("real", "double", "integer")),
                            (self.symmetry, ("general", "symmetric", "skew-symmetric"))):
            if word not in known:
                raise BadText(line, f"'{word}' is not taken: only " + ", ".join(known))
        self.body = [(number, words) for number, words in self.lines[1:] if words and not words[0].startswith("%")]
        self.places = {}
        if not self.body:
            raise BadText(self.lines[-1][0], "the file ends before its sizes")
        self.sizes()
        if self.form == "coordinate":
            self.coordinate()
        else:
            self.array()

    def sizes(self):
        line, words = self.body.pop(0)
        wanted = 3 if self.form == "coordinate" else 2
        if len(words) != wanted:
            raise BadText(line, f"{wanted} sizes have to stand here")
        self.size_line = line
        self.height, self.width = (whole(line, word, "a size") for word in words[:2])
        self.count = whole(line, words[2], "the number of entries") if wanted == 3 else None
        if self.symmetry != "general" and self.height != self.width:
            raise BadText(line, f"a {self.symmetry} matrix has to be square")

    def put(self, line, i, j, bits):
        if not (1 <= i <= self.height and 1 <= j <= self.width):
            raise BadText(line, f"the place ({i}, {j}) is outside {self.height} by {self.width}")
        if (i, j) in self.places:
            raise BadText(line, f"the place ({i}, {j}) is listed twice")
        if not is_finite(bits):
            raise BadText(line, f"the value at ({i}, {j}) is not finite")
        self.places[i, j] = bits

    def put_both(self, line, i, j, bits):
        """A place and, where the file leaves it out, its mirror image."""
        if self.symmetry == "skew-symmetric" and i == j:
            raise BadText(line, "a skew-symmetric matrix lists no diagonal")
        self.put(line, i, j, bits)
        if self.symmetry != "general" and i != j:
            self.put(line, j, i, bits if self.symmetry == "symmetric" else bits ^ 1 << 63)

    def coordinate(self):
        for line, words in self.body:
            if len(words) != 3:
                raise BadText(line, "an entry is a row, a column and a value")
            self.put_both(line, whole(line, words[0], "a row"), whole(line, words[1], "a column"), value(line, words[2]))
        if len(self.body) != self.count:
            raise BadText(self.size_line, f"{self.count} entries are announced, and {len(self.body)} are listed")

    def array(self):
        """Column by column; places that hold +0 are left out, for they need none in the pattern."""
        lower, strict = self.symmetry != "general", self.symmetry == "skew-symmetric"
        words = [(line, word) for line, row in self.body for word in row]
        count = self.height * (self.height - 1 if strict else self.height + 1) // 2 if lower else self.height * self.width
        if len(words) != count:                             # before the places are listed: the sizes may be huge
            raise BadText(self.size_line, f"{count} values have to follow, and {len(words)} do")
        order = [(i, j) for j in range(1, self.width + 1) for i in range((j + strict) if lower else 1, self.height + 1)]
        for (line, word), (i, j) in zip(words, order):
            bits = value(line, word)
            if bits != 0:
                self.put_both(line, i, j, bits)


def right_side(text):
    """A right side: a Matrix Market file with one column, or numbers alone (# or % begins a comment)."""
    if text.startswith("%%"):
        market = Market(text)
        if market.width != 1:
            raise BadText(market.size_line, "a right side has one column")
        return [market.places.get((i, 1), 0) for i in range(1, market.height + 1)]
    numbers = []
    for line, content in enumerate(text.splitlines(), 1):
        for word in content.split("#")[0].split("%")[0].split():
            bits = value(line, word)
            if not is_finite(bits):
                raise BadText(line, "a right side has to be finite")
            numbers.append(bits)
    return numbers


def from_market(matrix, right, pivots):
    """A job, and the rows whose diagonal place the file does not list: +0 is put there, which changes no result."""
    n = matrix.height
    if matrix.width != n or not 1 <= n <= MOST_FIELDS:
        raise BadText(matrix.size_line, f"the matrix is {n} by {matrix.width}: it has to be square, 1 to {MOST_FIELDS}")
    if len(right) != n:
        raise BadText(matrix.size_line, f"the matrix has {n} rows, and the right side {len(right)} numbers")
    added = [i for i in range(1, n + 1) if (i, i) not in matrix.places]
    places = dict(matrix.places)
    places.update(((i, i), 0) for i in added)
    rows = [Row(sorted((j, bits) for (k, j), bits in places.items() if k == i), right[i - 1]) for i in range(1, n + 1)]
    fields = Fields(n, rows, pivots)
    check = Checks(n, False)
    for k, p in enumerate(pivots, 1):
        check.pivot(matrix.size_line, k, p)
    if pivots:
        check.pivots(matrix.size_line, pivots)
    check.bytes(matrix.size_line, fields)
    return fields, added
