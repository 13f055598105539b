"""Sparse Gaussian elimination in planned slots: the proved library Dalumiveth for numpy.

    plan = dalumiveth.plan(A)       once for a pattern; the values are not looked at
    run = plan.run(A, b)            many times: run.x, run.pivot_rows, run.updates, run.L, run.U
    x = plan.solve(A, b)            the solution alone
    plan.run(A, b, steps=plan.n)    reduces a tall A, of more rows than columns: run.U, run.x[:n] and the misfit run.x[n:]
    factor = dalumiveth.splu(A)     in the manner of scipy.sparse.linalg.splu
    tally.add(3, run.updates)       the updates of a finished run for member 3; tally = dalumiveth.Tally()
    dalumiveth.write_offset(x[0])   milliarcseconds as "+012 34 56.789"; read_offset reads such a text
    dalumiveth.load(7, 50, 4)       A and b of a test load: seed 7, n 50, about one place in 4 present

How things count here:

* Rows, columns and steps count from 0, as in numpy: `pivot_rows[k]` is the row chosen at step k, a row list has the
  row of step k at place k, and a CSR matrix is taken as SciPy stores it. A step that was not done has pivot row -1.
* A `Refusal` has its number and its step as the papers have them: steps count from 1, and 0 means outside the steps.
* The six stores of a plan (`plan.stores`) are those of the library: their subscripts count from 1.
* `steps=s` cuts a run to its first s steps, s from 0 to n.
* Members of a tally count from 1, as in the papers: member m's sum is `tally.counters[m - 1]`.

The shared object is target/libdalumiveth.so of the repository (`make shared`), or the file that the environment variable
DALUMIVETH_LIBRARY names. It is loaded by the first call. numpy is needed; SciPy is used for L, U and test loads if it is there.
"""

from .factors import Factor, splu
from .jobs import job
from .loads import load
from .offsets import Offset, read_offset, write_offset
from .patterns import CSR
from .plans import Counts, Plan, Stores, plan
from .refusals import SENTENCES, Refusal
from .runs import Run
from .tallies import Tally

__all__ = [
    "CSR", "Counts", "Factor", "Offset", "Plan", "Refusal", "Run", "SENTENCES", "Stores", "Tally", "job", "load", "plan",
    "read_offset", "splu", "write_offset",
]
