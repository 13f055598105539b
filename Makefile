# The library for other languages, and what is made with it. Proofs and programs of the repository itself: see README.md.
#
#   make library       the archive, proved first                         crates/dalumiveth/out/libdalumiveth.a
#   make shared        the same functions as a shared object             target/libdalumiveth.so
#   make examples      the examples in C and Fortran, compared with what they must print
#   make test-c        header and library from C, C++ and Fortran: fixed calls, random systems, offsets, tallies and test loads
#   make test-python   the Python module (PYTHON=path of a Python with numpy)
#   make test-tools    the program and the tools of tools/ (PROGRAM=path takes another program than crates/program/out/program)
#   make bench         times beside other solvers
#
# LIBRARY=path takes another archive instead of the repository's. tools/test_callers.sh runs all tests over an archive that is made anew.

OWN_LIBRARY := crates/dalumiveth/out/libdalumiveth.a
LIBRARY ?= $(OWN_LIBRARY)
SHARED := target/libdalumiveth.so
PYTHON ?= $(firstword $(wildcard /usr/bin/python3) python3)

.PHONY: library shared examples test-c test-python test-tools bench always

library: $(LIBRARY)

# An archive that is there is not made again: `rt lib` proves the library, which takes minutes. After a change of the library
# remove it, or call `rt lib` in crates/dalumiveth.
$(OWN_LIBRARY):
	cd crates/dalumiveth && rt lib

shared: $(SHARED)

# Written beside and moved, so that a program that has the old one open keeps it.
$(SHARED): $(LIBRARY) target/shared_made_with
	$(CC) -shared -o $(SHARED).new -Wl,--whole-archive $(LIBRARY) -Wl,--no-whole-archive -Wl,-z,defs -Wl,-soname,libdalumiveth.so
	mv $(SHARED).new $(SHARED)

# Another archive or compiler makes it anew.
target/shared_made_with: always
	@mkdir -p target
	@echo '$(CC) $(LIBRARY)' | cmp -s - $@ || echo '$(CC) $(LIBRARY)' > $@

examples: $(LIBRARY)
	$(MAKE) -C examples check LIBRARY=$(abspath $(LIBRARY))

test-c: $(LIBRARY)
	$(MAKE) -C c_tests check LIBRARY=$(abspath $(LIBRARY))

test-python: shared
	$(PYTHON) -m unittest discover -s python/tests

test-tools:
	@for test in tools/test_*.py; do echo "python3 $$test"; python3 $$test || exit 1; done

bench: $(LIBRARY)
	$(MAKE) -C bench run LIBRARY=$(abspath $(LIBRARY))
