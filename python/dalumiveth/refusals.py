"""The refusals: numbers, sentences, and where each is checked."""

# Number: (where it is checked, its sentence), in the words of the table of document 01, 13 by document 02's ticket 14, 19 and 27 by
# its ticket 10, 23 by its ticket 6, 25 and 26 by its ticket 9 (which gives 2, 5, 10 and 12 their row count), 28 and 29 by its ticket
# 11; no other number is given. Rows, columns, places p_k and steps in the sentences count from 1.
SENTENCES = {
    1: ("pattern", "n is 0 or above 1,024 (or above what the caller takes), or there are more than 16,384 entries"),
    2: ("pattern", "the row starts are not one more than the rows, do not begin with 0, fall, or do not end with the number of entries"),
    3: ("pattern", "a column is outside 1 to n"),
    4: ("pattern", "columns do not ascend strictly in a row"),
    5: ("pattern", "one of the first n rows lacks its diagonal"),
    6: ("plan stores", "a starts store of the plan, a work store, or a store for a job's text, a tally, an offset or a test load has a wrong length"),
    7: ("plan stores", "an L subscript does not fit"),
    8: ("plan stores", "a U subscript does not fit"),
    9: ("values", "the lent plan differs from this pattern's plan in some count, start or used subscript"),
    10: ("values", "values are not as many as entries, the right side is not as long as there are rows, or slots are fewer than planned"),
    11: ("values", "a value or right side is not finite"),
    12: ("run", "the row list is not n long, p_k is below k or above the row count, or the steps are more than n"),
    13: ("run", "no row from this step on, or not the listed row, has an entry of magnitude at least 2^-1022 in this step's column"),
    14: ("run", "a quotient, product or difference is not finite"),
    15: ("job", "a command byte is unknown or stands where it may not, or R names another row than the next"),
    16: ("job", "the bytes end inside or before a command"),
    17: ("job", "bytes follow Z"),
    18: ("job", "the job is over 16,384 bytes"),
    19: ("tally", "the member's sum would pass 4,294,967,295; the tally stays as it was"),
    23: ("load", "the divisor d of a test load is 0"),
    25: ("pattern", "the rows are fewer than n or more than 2,048"),
    26: ("run", "a system with more rows than n is to be solved: it can be run only when cut"),
    27: ("tally", "the member number is outside 1 to 16; the tally stays as it was"),
    28: ("offset", "the text is not an offset such as +012 34 56.789 (14 bytes, below 360 degrees), or it is minus zero"),
    29: ("offset", "the number of milliarcseconds is not finite or rounds beyond the largest, 1,295,999,999"),
}

# What a caller from Python can do about it.
_ADVICE = {
    4: "a place is listed twice: A.sum_duplicates() makes one of them",
    5: "add_diagonal=True puts the missing places in, with the value 0",
    26: "steps=n reduces it: run.U and run.x[:n] are then triangular, run.x[n:] is the misfit",
}


class Refusal(Exception):
    """The library refused a call.

    number    1 to 19, 23, or 25 to 29
    step      the step, counted from 1, for 7, 8, 13 and 14 (14 in back substitution: the row); else 0
    sentence  what the number means
    where     what was being checked: "pattern", "plan stores", "values", "run", "job", "tally", "load" or "offset"
    """

    def __init__(self, number, step=0):
        super().__init__(number, step)
        self.number = number
        self.step = step
        self.where, self.sentence = SENTENCES[number]

    def __str__(self):
        place = f" at step {self.step}" if self.step else ""
        advice = f" ({_ADVICE[self.number]})" if self.number in _ADVICE else ""
        return f"refused {self.number}{place}, {self.where}: {self.sentence}{advice}"


def raise_if_refused(answer):
    """Raises the refusal that an answer in numbers holds: its number at place 0 (0: none), its step at place 1."""
    if answer[0]:
        raise Refusal(int(answer[0]), int(answer[1]))
