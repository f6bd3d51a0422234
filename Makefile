# The commands of README.md, and an installation. `make` alone builds what is installed.
PREFIX ?= /usr/local

# The version stands in the header and nowhere else. Before 1.0 the calls may change with the second number, so that
# the soname has both.
version := $(shell sed -n 's/^\#define RUONFIDD_VERSION_[A-Z]* //p' include/ruonfidd.h | paste -sd.)
soname := libruonfidd.so.$(basename $(version))

static := target/staticlib/libruonfidd.a
shared := target/sharedlib/libruonfidd.so.$(version)
hall := workbench/target/release/hall
program := target/bin/program_replay
installed := $(DESTDIR)$(PREFIX)

# What a make below this one prints is the same as at the top.
MAKEFLAGS += --no-print-directory

.PHONY: all demo test install prove program kit build
# The library is written by one rule and read by others.
.NOTPARALLEL:

# `rt` and `cargo` know what has changed since they were last asked.
all: build
	$(MAKE) $(shared)

# Proves the engine and builds hall on it; then hall looks for a way to break what is asked, and finds one: exit 1.
demo: build
	$(hall) explore workbench/examples/ballots.hall --ask 'at every end counted = 1' || test $$? -eq 1

# The gate. Its last line is `N passed, 0 failed`, or it has failed.
test:
	bash .ci/run

# `rt` builds in the crate's own folder. What it built is copied to where it is looked for, and only where it is not the
# same as before, since cargo goes by the file's time.
prove: kit
	cd crates/ruonfidd && rt lib
	cmp -s crates/ruonfidd/out/$(notdir $(static)) $(static) || \
	  install -D -m 644 crates/ruonfidd/out/$(notdir $(static)) $(static)

# The program that prints a run: proved, built, and run on no input.
program: kit
	cd crates/program_replay && rt run </dev/null >/dev/null
	cmp -s crates/program_replay/out/$(notdir $(program)) $(program) || \
	  install -D -m 755 crates/program_replay/out/$(notdir $(program)) $(program)

kit:
	@command -v rt >/dev/null || { echo 'rt is missing: see "The Rattle kit" in README.md' >&2; exit 1; }

build: prove
	cargo build --release --offline --locked --manifest-path workbench/Cargo.toml --target-dir workbench/target

# Without a kit these may be files that another machine has built.
$(static):
	$(MAKE) prove

$(hall): | $(static)
	$(MAKE) build

# `-z defs` and `-z text`: nothing is left to be found or changed in the code when it is loaded.
$(shared): $(static) include/ruonfidd.h Makefile
	mkdir -p $(@D)
	$(CC) -shared -Wl,-soname,$(soname),-z,defs,-z,text,--whole-archive $(static) -Wl,--no-whole-archive -o $@

# Installs what was built last, and builds what is missing.
install: $(static) $(shared) $(hall)
	install -d "$(installed)/bin" "$(installed)/include" "$(installed)/lib/pkgconfig"
	install -m 755 $(hall) "$(installed)/bin"
	install -m 644 include/ruonfidd.h "$(installed)/include"
	install -m 644 $(static) "$(installed)/lib"
	install -m 755 $(shared) "$(installed)/lib"
	ln -sf $(notdir $(shared)) "$(installed)/lib/$(soname)"
	ln -sf $(soname) "$(installed)/lib/libruonfidd.so"
	sed 's/@VERSION@/$(version)/' packaging/ruonfidd.pc.in >"$(installed)/lib/pkgconfig/ruonfidd.pc"
	chmod 644 "$(installed)/lib/pkgconfig/ruonfidd.pc"
