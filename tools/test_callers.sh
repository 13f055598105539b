#!/usr/bin/env bash
# What callers use, from the sources as they are proved: the archive made anew, then the tests of header and library in C, C++ and Fortran, the examples,
# the program, the tools, and the Python module where its Python has numpy. The second half of the gate (.ci/run); by itself after `rt check`.
#
#   tools/test_callers.sh             run all steps; the last line names the one that failed
#   tools/test_callers.sh STEP..      run these: compilers only says whether the compilers are there, since without one of them its language would be left out;
#                                     proved, right after `rt ci`, takes the place of archive and program, and makes the archive over what `rt ci` proved
set -u
cd "$(dirname "$0")/.."
ARCHIVE=crates/dalumiveth/out/libdalumiveth.a
PROGRAM=crates/program/out/program

compilers() {
    for compiler in make gcc g++ gfortran; do
        command -v "$compiler" > /dev/null || { echo "there is no $compiler"; return 1; }
    done
}

# `rt lib` proves the library itself again and takes what it lists from what was kept. A rule of make would leave an archive that is there as it is.
archive() {
    rm -f "$ARCHIVE"
    (cd crates/dalumiveth && rt lib)
}

# `rt run` makes the program anew where something changed, and runs it.
program() { (cd crates/program && rt run < ../../examples/four_fields.job); }

# The program is there already, as `rt ci` ran it.
proved() { python3 tools/archive.py && test -x "$PROGRAM"; }

interfaces() { make --no-print-directory test-c examples LIBRARY="$ARCHIVE"; }

tools() { make --no-print-directory test-tools PROGRAM="$PWD/$PROGRAM"; }

python_module() {
    local python=${PYTHON:-/usr/bin/python3}
    if "$python" -c 'import numpy' 2> /dev/null; then
        make --no-print-directory test-python PYTHON="$python" LIBRARY="$ARCHIVE"
    else
        echo "no numpy for $python: the Python tests were left out"
    fi
}

for step in ${*:-compilers archive program interfaces tools python_module}; do
    "$step" || { echo "test_callers: $step failed"; exit 1; }
done
