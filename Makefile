# The commands that do all: `make run`, `make test`, `make install`, and `make quick` for a first look.
RT = rt
# The program for people, and the one for scripts, with fixed words and lines.
PROGRAM = bin/ruvkhiska
FIXED = bin/transcode
BUILT = crates/ruvkhiska/out/ruvkhiska
FIXED_BUILT = crates/transcode_cmd/out/transcode_cmd
# The C library: the crate's archive, and what is installed of it.
ARCHIVE = crates/ruvkhiska_c/out/libruvkhiska_c.a
LIBRARY = bin/libruvkhiska.a
# Where `make install` installs. DESTDIR precedes it.
PREFIX = /usr/local
DESTDIR =
SOURCES = crates.txt $(shell find crates -name out -prune -o \( -name '*.rt' -o -name '*.antt' \) -print)
# How many crates are proved side by side at most; if it is empty, one for each processor, or fewer where memory is short.
JOBS =
PROVE = RT=$(RT) tests/prove.py $(if $(JOBS),--jobs $(JOBS))

# Proves and builds both programs, copies them to bin/ruvkhiska and bin/transcode, and shows the module of an example. The crates
# below them are proved side by side. One that `make run` or `rt check` proved isn't proved again, so an interrupted run goes on.
# The gate leaves the programs that it proved. Where no file has changed since, these are taken.
.PHONY: run
run: $(FIXED) $(PROGRAM)
	$(PROGRAM) show examples/order.xsd

# `bin/ruvkhiska --version` names the kit that is in the source.
$(PROGRAM): $(BUILT)
	@grep -qF "(proved by $$($(RT) version))" crates/people_options/src/arguments.rt || echo "note: --version names another kit than $$($(RT) version)"
	mkdir -p bin
	cp $(BUILT) $(PROGRAM)

$(FIXED): $(FIXED_BUILT)
	mkdir -p bin
	cp $(FIXED_BUILT) $(FIXED)

# The crates of both programs are proved for the first that is built.
$(BUILT): $(SOURCES) | $(FIXED_BUILT)
	$(PROVE) transcode_cmd ruvkhiska
	cd crates/ruvkhiska && $(RT) run -- trial 1 > /dev/null
	touch $(BUILT)

$(FIXED_BUILT): $(SOURCES)
	$(PROVE) transcode_cmd ruvkhiska
	cd crates/transcode_cmd && $(RT) run -- trial 1 > /dev/null
	touch $(FIXED_BUILT)

# Proves and builds both programs and the C library, which are installed with the package for Python.
.PHONY: build
build: $(FIXED) $(PROGRAM) $(LIBRARY)

$(LIBRARY): $(ARCHIVE) include/ruvkhiska.h install/library.sh install/version
	mkdir -p bin
	RT=$(RT) LIBRARY=$(ARCHIVE) install/library.sh bin

$(ARCHIVE): $(SOURCES) | $(BUILT)
	$(PROVE) ruvkhiska_c
	cd crates/ruvkhiska_c && $(RT) lib
	touch $(ARCHIVE)

# Installs them, with manual pages, completions and documentation. `make uninstall` removes what was installed.
.PHONY: install uninstall
install: build
	PREFIX="$(PREFIX)" DESTDIR="$(DESTDIR)" install/install.sh install

uninstall:
	PREFIX="$(PREFIX)" DESTDIR="$(DESTDIR)" install/install.sh uninstall

# Makes the Debian packages in out/.
.PHONY: deb
deb: build
	install/deb.sh out

# Builds both programs and the C library without any proof, as bin/ruvkhiska-unproved, bin/transcode-unproved and
# bin/libruvkhiska-unproved.a and .so.
.PHONY: quick
quick:
	RT=$(RT) tests/quick.sh
	bin/ruvkhiska-unproved show examples/order.xsd

# The merge gate, .ci/run: every proof, the edits that must be refused, the tests and the programs.
.PHONY: test
test:
	RT=$(RT) tests/prove.py --gate
