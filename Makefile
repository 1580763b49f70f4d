# Each target is a command that a person could type.
CALLS ?= 100000
FUZZ ?= 100000
SEED ?= 1
AREAS ?= $(shell cat tools/areas)
PREFIX ?= /usr/local
LIB ?= target/staticlib/libvignorasc.a

.PHONY: demo test trials bench audit host install sample clean

# The main job: prove the story's program and everything below it, run it, and show what it says.
demo:
	tools/demo

# The whole gate. The last line is rt ci's own, printed only if everything passed.
test:
	tools/test

# CALLS random calls, answered by the port and by the Rust, compared byte for byte.
trials:
	tools/trials $(AREAS) $(CALLS) $(SEED)

# Instructions of each published call, beside the Rust's; the table goes to docs/MEASURED.md.
bench:
	bench/run

# The library from C and from Rust: layouts held together, a C program, the crate's tests, a server on loopback whose client changes its address, an
# installation, the stored sample, and damaged states (FUZZ of them, from SEED).
host:
	tools/staticlib vignorasc
	FUZZ=$(FUZZ) SEED=$(SEED) tests/host/run

# What a host links: the archive, the header and pkg-config's file, under PREFIX. DESTDIR goes before it, for packages.
install: $(LIB)
	install -d $(DESTDIR)$(PREFIX)/lib/pkgconfig $(DESTDIR)$(PREFIX)/include
	install -m 644 $(LIB) $(DESTDIR)$(PREFIX)/lib/libvignorasc.a
	install -m 644 include/vignorasc.h $(DESTDIR)$(PREFIX)/include/vignorasc.h
	sed -e 's|@PREFIX@|$(abspath $(PREFIX))|' -e "s|@VERSION@|$$(sed -n 's/^version = "\(.*\)"/\1/p' rust/Cargo.toml)|" vignorasc.pc.in > $(DESTDIR)$(PREFIX)/lib/pkgconfig/vignorasc.pc

# Made where it is missing. After an edit, tools/staticlib vignorasc makes it again.
$(LIB):
	tools/staticlib vignorasc

# Wrong answers, two and more for each published call, made in a copy of the code: the prover must refuse each. docs/AUDIT.md.
audit:
	tests/audit/run

# The stored trace that the gate replays, made again by the Rust.
sample:
	tools/sample

clean:
	rm -rf target oracle/target bench/target rust/target crates/*/out
