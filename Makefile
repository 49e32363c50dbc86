# The program is built by the kit's command `rt`, which proves it first.
PROGRAM = build/markov
EXAMPLE = build/example

.PHONY: all try example test install clean
.DEFAULT_GOAL := all

all: $(PROGRAM)

# Proves the crates side by side. The program's own run is then on no words: it says how to call it and ends with status 1.
$(PROGRAM): FORCE
	@.ci/prove
	@cd crates/markov_cli && rt run > ../../build/rt.log 2>&1; test -x out/markov_cli || { cat ../../build/rt.log; exit 1; }
	@cp crates/markov_cli/out/markov_cli $(PROGRAM)
	@echo "$(PROGRAM) is built"

# Runs the program on an example before any proof. It proves nothing.
try:
	@rm -rf $(EXAMPLE) && mkdir -p $(EXAMPLE) && cp examples/cube/cube.lat $(EXAMPLE)
	@echo "cube.lat:" && cat $(EXAMPLE)/cube.lat
	@cd crates/markov_cli && rt try -- $(CURDIR)/$(EXAMPLE)/cube > $(CURDIR)/build/try.log 2>&1 || { cat $(CURDIR)/build/try.log; exit 1; }
	@echo "cube.mar:" && cat $(EXAMPLE)/cube.mar
	@echo "This run proves nothing: 'make example' proves the program first."

# Builds the program, runs it on an example and shows what it read and wrote.
example: $(PROGRAM)
	@rm -rf $(EXAMPLE) && mkdir -p $(EXAMPLE) && cp examples/cube/cube.lat $(EXAMPLE)
	@echo "cube.lat:" && cat $(EXAMPLE)/cube.lat
	@cd $(EXAMPLE) && ../markov cube
	@echo "cube.mar:" && cat $(EXAMPLE)/cube.mar

# Proves everything, runs every test, and runs the built program over real files.
test:
	bash .ci/run

# Puts the program on the PATH as `markov`, and its manual page: make install PREFIX=/usr/local
PREFIX ?= $(HOME)/.local
install: $(PROGRAM)
	install -D -m 755 $(PROGRAM) $(PREFIX)/bin/markov
	install -D -m 644 docs/markov.1 $(PREFIX)/share/man/man1/markov.1

clean:
	rm -rf build

FORCE:
