"""The job: from the bytes of a job to the bytes that are printed."""

import numpy as np

from .library import USIZE, call, lend
from .refusals import raise_if_refused

_ROOM = 8192  # the places of the text's store, room for every answer; of another length it is 6


def job(data):
    """The bytes that the job program prints for a job: a plan, rows, x and updates, or `refused`, number and step.

    A refusal of the job is printed: it is an answer here and no exception. The format of a job stands in docs/JOB.md.
    """
    if not isinstance(data, (bytes, bytearray, memoryview)):
        raise TypeError(f"a job is bytes, not {type(data).__name__}")
    read = np.frombuffer(data, dtype=np.uint8) if len(data) else np.zeros(0, dtype=np.uint8)
    printed = np.empty(_ROOM, dtype=np.uint8)
    answer = np.zeros(3, dtype=USIZE)
    call("dalumiveth_job", *lend(read, printed, answer))
    raise_if_refused(answer)
    return printed[: int(answer[2])].tobytes()
