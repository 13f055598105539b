"""What the steps of a pattern's plan do, so that the requests of the test programs reach every way a step can go."""
import collections

from cases_patterns import shared_with_earlier, sparse, strip_with_steps_between


# ------------------------------------------------------- rows that join the list of the step before

Joined = collections.namedtuple("Joined", "step sides")


def store_sizes(plan, side):
    """How long a side's store is after each number of steps."""
    sizes = [0]
    for k in range(1, plan.n + 1):
        sizes.append(max(sizes[-1], side.start[k] + len(side.kept[k])))
    return sizes


def place_in(members, more):
    """How a second list lies to a first: it adds nothing, adds behind the last member, or adds before the first or between two members too."""
    if all(x in members for x in more):
        return "nothing"
    least = min(x for x in more if x not in members)
    if least > max(members, default=0):
        return "behind"
    return "before" if least < members[0] else "between"


def met_and_handed(plan, rows):
    """For each step the rows that are first met at it, and the steps of its set S."""
    first_met, steps = ([[] for _ in range(plan.n + 2)] for _ in "rs")
    for i, row in enumerate(rows, 1):
        if row:
            first_met[row[0]].append(i)
    for k in range(1, plan.n + 1):
        if plan.l_side.kept[k] and plan.u_side.kept[k]:
            steps[plan.u_side.kept[k][0]].append(k)
    return first_met, steps


def joined(dense, rows, n=None):
    """The steps at which one row joins the list of the step before. For L, then for U: "end" if that list does not end its store, else how
    the row (L) or its columns (U) lie to it. To L the step's own row adds nothing, any other row adds itself."""
    plan = dense.plan(rows, n=n)
    first_met, steps = met_and_handed(plan, rows)
    used = {side: store_sizes(plan, side) for side in (plan.l_side, plan.u_side)}
    found = []
    for k in range(2, plan.n + 1):
        if len(first_met[k]) != 1 or steps[k] != [k - 1]:
            continue
        row = first_met[k][0]
        sides = []
        for side, more in ((plan.l_side, [row]), (plan.u_side, rows[row - 1])):
            if side.start[k - 1] + len(side.kept[k - 1]) != used[side][k - 1]:
                sides.append("end")
            else:
                sides.append(place_in([x for x in side.kept[k - 1] if x != k], [x for x in more if x != k]))
        found.append(Joined(k, tuple(sides)))
    return found


def joined_above(dense, rows, n):
    """Those of them at which the row is above n. It is not the step's own: to L it adds itself."""
    return [found for found in joined(dense, rows, n) if any(row[:1] == [found.step] for row in rows[n:])]


# Document 02, ticket 9: "step k joins no S if U_k has no further member".
HANDED_ON_TO_NONE = {"met": "all rows of L_k are first met at k", "sole": "L_k is what one step hands on", "several": "L_k is what several steps hand on",
                     "both": "rows that are first met at k join what steps hand on"}


def handed_on_to_none(plan, rows):
    """The steps whose L has further members where their U has none, each with its kind and whether it is the last."""
    first_met, steps = met_and_handed(plan, rows)
    for k in range(1, plan.n + 1):
        if plan.l_side.kept[k] and not plan.u_side.kept[k]:
            kind = "met" if not steps[k] else "both" if first_met[k] else "sole" if len(steps[k]) == 1 else "several"
            yield k, kind, k == plan.n


def ways(dense, rows):
    """For each step at which one row joins the list of the step before: whether it only adds behind it on both sides ("behind"), or what
    stands against that: the list of a side does not end its store ("end"), the row lies between ("row"), a column is no member ("column")."""
    found = set()
    for _, (lower, upper) in joined(dense, rows):
        if "end" in (lower, upper):
            found.add("end")
        elif lower in ("before", "between"):
            found.add("row")
        elif upper in ("before", "between"):
            found.add("column")
        else:
            found.add("behind")
    return found


def may_miss_end(n, bits):
    """Whether `ways` can find "end" for rows that are given as bits. A list that does not end its store was shared with a sole step other
    than the one just before it, or with such a list. Few patterns have that, and `ways` takes ten times as long."""
    first_met = [0] * (n + 2)
    lower, upper, sets = [0] * (n + 2), [0] * (n + 2), [[] for _ in range(n + 2)]
    for i, row in enumerate(bits, 1):
        k = (row & -row).bit_length() - 1
        first_met[k] += 1
        lower[k] |= 1 << i
        upper[k] |= row
    apart = [False] * (n + 2)
    for k in range(1, n + 1):
        above = -1 << k
        for l in sets[k]:
            lower[k] |= lower[l] & above
            upper[k] |= upper[l] & above
        if len(sets[k]) == 1:
            l = sets[k][0]
            if first_met[k] == 0:
                apart[k] = l != k - 1 or apart[l]
            elif first_met[k] == 1 and l == k - 1 and apart[l]:
                return True
        if lower[k] & (lower[k] - 1):
            rest = upper[k] & (-2 << k)
            sets[(rest & -rest).bit_length() - 1].append(k)
    return False


# ------------------------------------------------------- lists and the end of their store
# Document 02, ticket 5: "t is the longest run for which the last t subscripts of the whole store equal the first t of the new list, whichever list put
# them there. The two earlier cases of document 01 still come first." Document 01 alone compared the list of k-1, if it ended the store.

# where t is longer than document 01 alone has it
LONGER = {"part": "the list of k-1 does not end the store, and a part of the new list stands there",
          "all": "the list of k-1 does not end the store, and all of the new list stands there: nothing is added",
          "after none": "the list of k-1 is empty",
          "after [k]": "the list of k-1 is [k] and does not end the store",
          "by several": "more than one step put the t subscripts there",
          "beyond": "the list of k-1 ends the store, and t is more than its length",
          "whole store": "the new list is longer than the store, which t takes whole"}
# where t is not asked for, or is 0, and a near mistake would have another start
AS_BEFORE = {"empty": "an empty list, behind some subscripts",
             "[k] at the end": "the list of k-1 is [k] and ends the store: all of the new list is above k",
             "sole, all": "all of a sole step's list stands at the end as well",
             "sole, part": "a part of a sole step's list stands at the end"}
Ended = collections.namedtuple("Ended", "side step kinds")


def longest_run(store, new):
    """The longest t for which the last t of one list are the first t of another."""
    return max(t for t in range(min(len(store), len(new)) + 1) if store[len(store) - t:] == new[:t])


def kinds_of_longer(side, k, sizes, t):
    """The kinds of a list whose t document 01 alone does not have."""
    last, new, end = side.kept[k - 1], side.kept[k], sizes[k - 1]
    found = set()
    if side.start[k - 1] + len(last) != end:
        found.add("all" if t == len(new) else "part")
        if last == [k]:
            found.add("after [k]")
    else:
        found.add("beyond" if last else "after none")
    if t == end < len(new):
        found.add("whole store")
    if len({min(step for step in range(1, k) if place < sizes[step]) for place in range(end - t, end)}) > 1:
        found.add("by several")
    return found


def kinds_at(side, k, is_sole, sizes):
    """What the list of step k is to its side's store, which is so long after each number of steps."""
    new, end = side.kept[k], sizes[k - 1]
    if not new:
        return {"empty"} if end else set()
    t = longest_run(side.store[:end], new)
    if is_sole:
        return {"sole, all" if t == len(new) else "sole, part"} if t and side.start[k] != end - t else set()
    if k == 1:
        return set()
    last = side.kept[k - 1]
    ends = side.start[k - 1] + len(last) == end
    if t > (longest_run(last, new) if ends else 0):
        return kinds_of_longer(side, k, sizes, t)
    return {"[k] at the end"} if ends and last == [k] else set()


def ends_met(plan, rows):
    """The steps and sides whose list is one of the kinds above to its store."""
    first_met, steps = met_and_handed(plan, rows)
    found = []
    for letter, side in (("L", plan.l_side), ("U", plan.u_side)):
        sizes = store_sizes(plan, side)
        for k in range(1, plan.n + 1):
            kinds = kinds_at(side, k, len(steps[k]) == 1 and not first_met[k], sizes)
            if kinds:
                found.append(Ended(letter, k, kinds))
    return found


def sharing_otherwise(dense, rng, times, patterns):
    """Patterns in which some t is longer than document 01 alone has it, each with the steps for which it was taken: every kind `times` times on either
    side, and so many patterns at least. On the side of L no list of a sole step stands elsewhere too: its rows are in no list between the two steps."""
    wanted = {(side, kind): times for side in "LU" for kind in (*LONGER, *AS_BEFORE) if side == "U" or not kind.startswith("sole")}
    taken = []
    while any(wanted.values()) or len(taken) < patterns:
        for rows in (sparse(rng, rng.randint(4, 10), rng.randint(3, 20)), strip_with_steps_between(rng), shared_with_earlier(rng)):
            met = ends_met(dense.plan(rows), rows)
            if rows in taken or not any(kind in LONGER for ended in met for kind in ended.kinds):
                continue
            asked = [ended for ended in met if any(wanted.get((ended.side, kind)) for kind in ended.kinds)]
            if not asked and any(wanted.values()):
                continue
            for ended in asked:
                for kind in ended.kinds:
                    wanted[ended.side, kind] = max(0, wanted[ended.side, kind] - 1)
            taken.append(rows)
            yield rows, asked
