# `make` proves and builds the program and maps an example; `make test` passes all tests, and `make gate` also tries all
# must-fail edits.
.PHONY: all relief test gate bench recipes picture pictures install uninstall package qgis-plugin

all: relief
	./relief fill < examples/valley.asc

relief:
	tools/build

# Proves all crates and those of tests, and runs all tests: those that take the program alone beside the proofs of the
# crates of tests. `gate` tries the must-fail edits too, in the same run of `rt ci`, so that nothing is proved twice.
test gate:
	tests/documents
	tools/build $(EDITS)
	tests/progress ./relief
	$(MAKE) --no-print-directory --jobs=4 --output-sync=target test-program TEST_CRATES=$(TEST_CRATES)
test: TEST_CRATES = test-crates
gate: EDITS = --edits

# The longest first. tests/progress looks at the clock, and so runs alone.
PROGRAM_TESTS = refusals gis certificate limits sights texts install recipes run catchments pictures tools
.PHONY: test-program test-crates $(PROGRAM_TESTS:%=test-%)
test-program: $(TEST_CRATES) $(PROGRAM_TESTS:%=test-%)
test-crates:
	nice tools/build --tests
test-run test-texts test-catchments test-certificate test-sights test-limits test-install: test-%:
	tests/$* ./relief
test-pictures test-tools: test-%:
	tests/$*
test-refusals: $(TEST_CRATES)
	tests/refusals ./relief crates/*/out/*_tests
test-recipes:
	tools/recipes ./relief
test-gis:
	tests/gis/run ./relief

# The rest takes the program that `make` has built.
BUILT = @test -x relief || { echo "There is no ./relief: run make first." >&2; exit 1; }

# Times against a plain Rust twin: make bench SIZES="1024 2048" MAPS="fill flow" CORES="1 4" REPEAT=3 TERRAINS="hills cone"
bench:
	$(BUILT)
	@command -v rustc > /dev/null || { echo "make bench takes rustc, which builds the twin." >&2; exit 1; }
	bench/run ./relief $(if $(SIZES),--sizes $(SIZES)) $(if $(MAPS),--maps $(MAPS)) \
	  $(if $(CORES),--workers $(CORES)) $(if $(REPEAT),--repeat $(REPEAT)) $(if $(TERRAINS),--terrains $(TERRAINS))

# Runs the commands of the documents whose tools are installed, and checks what they print.
recipes:
	$(BUILT)
	tools/recipes
	tests/gis/run ./relief test_page.py

# Draws a map: make picture IN=view.asc OUT=seen.png KIND=view OVER=dem.asc MARK="100,3 40,90" UNIT=m SIDE=1024
OUT = $(basename $(IN)).png
picture:
	@test -n "$(IN)" || { echo "make picture IN=grid.asc [OUT=grid.png]" \
	  "[KIND=heights|fill|flow|accumulate|basins|catchments|view|rise]" \
	  "[OVER=terrain.asc] [MARK=\"ROW,COL ..\"] [UNIT=m] [SIDE=1024]" >&2; exit 1; }
	@tools/picture "$(IN)" "$(OUT)" $(if $(KIND),--kind "$(KIND)") $(if $(OVER),--over "$(OVER)") \
	  $(if $(MARK),--mark $(MARK)) $(if $(UNIT),--unit "$(UNIT)") $(if $(SIDE),--side "$(SIDE)")

# The pictures in docs/, of the maps of examples/coast.asc.
pictures:
	$(BUILT)
	tools/example_pictures

PREFIX ?= /usr/local
BIN = $(DESTDIR)$(PREFIX)/bin
SHARE = $(DESTDIR)$(PREFIX)/share
MAN = $(SHARE)/man/man1
BASH = $(SHARE)/bash-completion/completions
ZSH = $(SHARE)/zsh/$(if $(filter /usr,$(PREFIX)),vendor-completions,site-functions)
# The tools are installed as relief-NAME.
TOOLS = cells holes picture

install:
	$(BUILT)
	install -d "$(BIN)" "$(MAN)" "$(SHARE)/relief" "$(BASH)" "$(ZSH)"
	install -m 755 relief "$(BIN)/relief"
	install -m 644 docs/relief.1 "$(MAN)/relief.1"
	install -m 755 $(TOOLS:%=tools/%) "$(SHARE)/relief"
	install -m 644 tools/grid_text.py gis/relief_gis/voids.py "$(SHARE)/relief"
	for tool in $(TOOLS); do \
	  ln -sf "../share/relief/$$tool" "$(BIN)/relief-$$tool" && ln -sf relief.1 "$(MAN)/relief-$$tool.1" || exit 1; done
	install -m 644 tools/completion/relief.bash "$(BASH)/relief"
	install -m 644 tools/completion/_relief "$(ZSH)/_relief"
	pages=$$(tools/linked_pages README.md) && for page in $$pages; do \
	  install -D -m 644 "$$page" "$(SHARE)/doc/relief/$$page" || exit 1; done
	@[ -n "$(DESTDIR)" ] || gis/install "$(PREFIX)"

uninstall:
	rm -f "$(BIN)/relief" $(TOOLS:%="$(BIN)/relief-%") "$(MAN)/relief.1" $(TOOLS:%="$(MAN)/relief-%.1")
	rm -f "$(BASH)/relief" "$(ZSH)/_relief"
	rm -rf "$(SHARE)/relief" "$(SHARE)/doc/relief"
	@[ -n "$(DESTDIR)" ] || gis/install --remove "$(PREFIX)"

# Debian packages of the built program and its tools, and of relief-gis, below out/.
package:
	$(BUILT)
	tools/package
	gis/package

# The archive that QGIS's plugin manager installs, below out/.
qgis-plugin:
	gis/qgis-plugin
