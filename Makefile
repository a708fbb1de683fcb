# The archive for C firmware and the bench program: built (that is, proved) by rt, Rattle's kit, and installed.

PREFIX ?= /usr/local
DESTDIR ?=
INSTALL ?= install
prefix = $(abspath $(PREFIX))
to = $(DESTDIR)$(prefix)

archive = target/staticlib/libmileage.a
program = target/bin/mileage_bench
# folders too: a file that is gone counts as a change; out/ is what rt keeps of its work
sources := $(shell find crates/*/* crates.txt -name out -prune -o -print)
version := $(shell sed -n 's/^.define MILEAGE_VERSION UINT32_C(\(.*\))$$/\1/p' include/mileage.h)

define help
make all                    proves and builds $(archive) and $(program);
                            needs rt, Rattle's kit, on PATH; some 10 minutes from nothing
make test                   the whole gate: all proofs, all tests (bash .ci/run)
make install PREFIX=FOLDER  all, and then header, archive, bench program and mileage.pc for pkg-config below FOLDER
                            (now $(prefix); DESTDIR is put before it)
make clean                  removes target/ and crates/*/out, all that was built
endef
export help

.PHONY: help all test install clean

help:
	@echo "$$help"

all: $(archive) $(program)

# for every x86-64, with SSE2 alone
$(archive): $(sources)
	cd crates/mileage && rt lib --cpu=x86-64
	$(INSTALL) -d $(@D)
	$(INSTALL) -m 644 crates/mileage/out/libmileage.a $@

# rt runs what it built: an empty script
$(program): $(sources)
	cd crates/mileage_bench && rt run </dev/null >/dev/null
	$(INSTALL) -d $(@D)
	$(INSTALL) -m 755 crates/mileage_bench/out/mileage_bench $@

# one after the other: both prove the same crates
$(program): | $(archive)

test:
	bash .ci/run

install: all
	@case "$(PREFIX)" in "" | *[[:space:]\']*) echo "make install: PREFIX is the name of a folder, without blanks and quotes" >&2; exit 1 ;; esac
	@printf '%s\n' 'prefix=$(prefix)' 'includedir=$${prefix}/include' 'libdir=$${prefix}/lib' '' 'Name: mileage' \
	    'Description: mileage agreement core for C firmware, x86-64' 'Version: $(version)' \
	    'Cflags: -I$${includedir}' 'Libs: -L$${libdir} -lmileage' >target/mileage.pc
	$(INSTALL) -d "$(to)/include" "$(to)/lib/pkgconfig" "$(to)/bin"
	$(INSTALL) -m 644 include/mileage.h "$(to)/include/mileage.h"
	$(INSTALL) -m 644 $(archive) "$(to)/lib/libmileage.a"
	$(INSTALL) -m 644 target/mileage.pc "$(to)/lib/pkgconfig/mileage.pc"
	$(INSTALL) -m 755 $(program) "$(to)/bin/mileage_bench"

clean:
	rm -rf target crates/*/out
