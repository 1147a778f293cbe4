# run:  prove, build and run the program on the sample job
# test: the gate, from nothing
# c-example: prove and build the static library, and run a C program that links it
# compare: compare the static library with oxc_codegen 0.156.0, whose source folder is SRC (see compare/README.md);
#          WORDS=bench times both, WORDS='record FILE' records a sample of the crate's answers
.PHONY: run test c-example compare

SAMPLE = data/sample.job
LIBRARY = crates/capi/out/libcapi.a
C_FLAGS = -std=c99 -Wall -Wextra -pedantic -Werror -O2
C_EXAMPLE = target/c-example

run:
	cd crates/plantpage && rt run -- $(SAMPLE)

test:
	.ci/run

c-example:
	cd crates/capi && rt lib
	mkdir -p $(C_EXAMPLE)
	gcc $(C_FLAGS) -Iinclude examples/c/print.c $(LIBRARY) -o $(C_EXAMPLE)/print
	$(C_EXAMPLE)/print | tee $(C_EXAMPLE)/stdout
	diff examples/c/stdout $(C_EXAMPLE)/stdout

compare:
	@test -n "$(SRC)" || { echo "make compare SRC=path: name the source folder of oxc_codegen 0.156.0"; exit 2; }
	cd crates/capi && rt lib
	compare/run "$(SRC)" $(WORDS)
