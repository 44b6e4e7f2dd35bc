# Lamphudet. The lines below that begin with two # are what `make help` says.

PREFIX ?= /usr/local
LIBDIR ?= $(PREFIX)/lib
INCLUDEDIR ?= $(PREFIX)/include
BINDIR ?= $(PREFIX)/bin
MANDIR ?= $(PREFIX)/share/man
DOCDIR ?= $(PREFIX)/share/doc/lamphudet
DESTDIR ?=
# The seed of the compared cases; empty for the one that the gate takes.
SEED ?=
CC ?= cc
CFLAGS ?= -O2
DESK ?= target/desk
SCANNER ?= target/scanner
VERSION := $(shell sed -n 's/^.define LAMPHUDET_VERSION "\(.*\)"$$/\1/p' include/lamphudet.h)
# What a shared library's name has of it: the first two numbers while the first is 0, then the first alone.
NUMBERS := $(subst ., ,$(VERSION))
SO_VERSION := $(firstword $(NUMBERS))$(if $(filter 0,$(firstword $(NUMBERS))),.$(word 2,$(NUMBERS)))

.DELETE_ON_ERROR:
.PHONY: all help desk scanner demo test units compare samples bench install uninstall format clean

##   make            the libraries, in target/staticlib and target/sharedlib, the desk and the scanner; what
##                   a library is built on is proved first, which takes some minutes the first time
all: libraries desk scanner

##   make help       this
help:
	@sed -n 's/^## //p' Makefile

# A value as one word of the shell's, whatever stands in it.
quoted = '$(subst ','\'',$(1))'

# Says of a command that is missing what it is for.
found = @command -v $(1) > /dev/null || { echo '$(1) is not on the PATH: $(2)'; exit 1; }
rt-found = $(call found,rt,the command of the Rattle toolchain builds and proves this repository)
cc-found = $(call found,$(firstword $(CC)),a C compiler builds shared libraries$(,) desk and scanner (on Debian: apt install gcc))
, := ,

# Named first of all that something needs, so that it is looked for before minutes of proof.
.PHONY: cargo-found
cargo-found:
	$(call found,cargo,it builds the independent Rust implementation (on Debian: apt install cargo))

# A library's archive is that of the crate that exports its calls, NAME_c. It is built again where a source of a crate that this
# one is built on has changed, or has come or gone, which changes the folder. The C compiler comes after minutes of proof, so it
# is looked for before them.
folders = $(foreach crate,$(shell tools/built-on $(1)_c),$(addprefix crates/$(crate)/,src specs proofs))
sources = crates.txt $(shell find $(wildcard $(folders)))
define build-archive
	$(rt-found)
	$(cc-found)
	@tools/archive $(1)
endef

# The archives that everything else takes. Where LAMPHUDET_ARCHIVE names one, that is taken as it is and not built; likewise
# LAMPHUDET_SEALS_ARCHIVE, for seals.
ifdef LAMPHUDET_ARCHIVE
ARCHIVE := $(LAMPHUDET_ARCHIVE)
$(ARCHIVE):
	@echo 'there is no archive $(ARCHIVE), which LAMPHUDET_ARCHIVE names'; exit 1
else
ARCHIVE := target/staticlib/liblamphudet.a
$(ARCHIVE): $(call sources,lamphudet)
	$(call build-archive,lamphudet)
endif

# The first archive goes before it: much of what the two are built on is the same.
ifdef LAMPHUDET_SEALS_ARCHIVE
SEALS_ARCHIVE := $(LAMPHUDET_SEALS_ARCHIVE)
$(SEALS_ARCHIVE):
	@echo 'there is no archive $(SEALS_ARCHIVE), which LAMPHUDET_SEALS_ARCHIVE names'; exit 1
else
SEALS_ARCHIVE := target/staticlib/liblamphudet_seals.a
$(SEALS_ARCHIVE): $(call sources,lamphudet_seals) | $(ARCHIVE)
	$(call build-archive,lamphudet_seals)
endif

ARCHIVES := $(ARCHIVE) $(SEALS_ARCHIVE)

# What is built has one name each, and make takes names apart at their blanks.
one-name = $(if $(filter-out 1,$(words $($(1)))),$(error $(1) is empty or has a blank in its name: '$($(1))'))
$(foreach built,ARCHIVE SEALS_ARCHIVE DESK SCANNER,$(call one-name,$(built)))

# What the C compiler makes is made again where it, its flags or the archives are not those of the last time.
with = $(call quoted,$(C99) $(LDFLAGS) $(ARCHIVES))
%.with: always
	@mkdir -p '$(@D)'
	@printf '%s\n' $(with) | cmp -s - '$@' || printf '%s\n' $(with) > '$@'
.PHONY: always
always:
.SECONDARY:

# Beside each archive a shared library, which is the archive's code and hands out the calls alone. Its name has the first
# numbers of the version, which stands in the header.
SHARED := target/sharedlib/liblamphudet.so target/sharedlib/liblamphudet_seals.so
target/sharedlib/liblamphudet.so: $(ARCHIVE)
target/sharedlib/liblamphudet_seals.so: $(SEALS_ARCHIVE)
$(SHARED): target/sharedlib/lib%.so: packaging/%.map include/lamphudet.h target/sharedlib/lib%.so.with
	$(cc-found)
	@$(CC) -shared -o $@ -Wl,-soname,lib$*.so.$(SO_VERSION) -Wl,--version-script,packaging/$*.map \
	    -Wl,-z,defs -Wl,--whole-archive $(filter %.a,$^) -Wl,--no-whole-archive $(LDFLAGS)
	@echo 'built $@'

.PHONY: libraries
libraries: $(ARCHIVES) $(SHARED)

##   make desk       target/desk, a C host over the first archive
##   make scanner    target/scanner, one over both
C99 = $(CC) -std=c99 -Wall -Wextra -Wpedantic $(CFLAGS) -Iinclude -Iexamples/shared
host-sources = $(wildcard include/*.h examples/$(1)/*.[ch] examples/shared/*.[ch])
define build-host
	$(cc-found)
	@$(C99) -o '$@' $(filter %.c,$^) $(filter %.a,$^) $(LDFLAGS)
endef

$(DESK): $(call host-sources,desk) $(ARCHIVE) $(DESK).with
	$(build-host)
desk: $(DESK)
	@echo 'the desk is $(DESK); $(DESK) --help says what it does'

# The scanner makes calls of both archives, neither of which needs the other.
$(SCANNER): $(call host-sources,scanner) $(ARCHIVES) $(SCANNER).with
	$(build-host)
scanner: $(SCANNER)
	@echo 'the scanner is $(SCANNER); $(SCANNER) --help says what it does'

##   make demo       both on their samples, sound and refused
demo: $(DESK) $(SCANNER)
	@examples/desk/demo '$(DESK)'
	@examples/scanner/demo '$(SCANNER)'

##   make install    libraries, headers, pkg-config files, manual pages, CHANGELOG.md, desk and scanner below
##                   PREFIX
##   make uninstall  takes them away again
# Handed to that script alone: a make that another recipe runs, such as a test's, is to make its own of them.
handed = $(foreach name,PREFIX LIBDIR INCLUDEDIR BINDIR MANDIR DOCDIR DESTDIR VERSION SO_VERSION ARCHIVE SEALS_ARCHIVE DESK \
    SCANNER,$(name)=$(call quoted,$($(name))))
install: libraries $(DESK) $(SCANNER)
	@$(handed) tools/install files

uninstall:
	@$(handed) tools/install remove

##   make test       the gate: all proved, wrong programs refused, every call compared
test:
	$(rt-found)
	@.ci/run

# Where none is named, the Rust crates find the repository's own archives.
CARGO := $(if $(LAMPHUDET_ARCHIVE),LAMPHUDET_ARCHIVE='$(abspath $(ARCHIVE))') \
         $(if $(LAMPHUDET_SEALS_ARCHIVE),LAMPHUDET_SEALS_ARCHIVE='$(abspath $(SEALS_ARCHIVE))') cargo
CARGO_FLAGS := --quiet --release --locked --offline

##   make units      the own tests of the Rust crates, the independent implementation first
# It is held to what the papers publish before anything is held to it.
units: cargo-found $(ARCHIVES)
	@for crate in tests/paper tests/scanner tests/shared tests/compare bench; do \
	    $(CARGO) test $(CARGO_FLAGS) --manifest-path $$crate/Cargo.toml --tests || exit 1; \
	done

##   make compare    units, then the archives held to that implementation; SEED=.. tries other cases
compare: units
	@$(CARGO) run $(CARGO_FLAGS) --manifest-path tests/compare/Cargo.toml -- $(SEED)

##   make samples    the scanner's samples, made again by that implementation's encoder
samples: cargo-found
	@cargo run $(CARGO_FLAGS) --manifest-path tests/scanner/Cargo.toml -- examples/scanner/samples

##   make bench      writes docs/FIGURES.md; takes valgrind and OpenSSL's libcrypto where they are
bench: cargo-found $(ARCHIVES)
	@$(CARGO) run $(CARGO_FLAGS) --manifest-path bench/Cargo.toml -- docs/FIGURES.md

##   make format     lays out all sources as the gate wants them
format: cargo-found
	$(rt-found)
	@for crate in crates/*/; do (cd $$crate && rt fmt) || exit 1; done
	@for manifest in tests/*/Cargo.toml bench/Cargo.toml; do cargo fmt --manifest-path $$manifest || exit 1; done

##   make clean      takes target/ away
clean:
	rm -rf target

## 
## Variables, with what they are unless they are given:
##   PREFIX=/usr/local, LIBDIR=PREFIX/lib, INCLUDEDIR=PREFIX/include, BINDIR=PREFIX/bin,
##   MANDIR=PREFIX/share/man, DOCDIR=PREFIX/share/doc/lamphudet, and DESTDIR, none, which stands before each
##   when a package is made
##   CC=cc, CFLAGS=-O2, LDFLAGS, for shared libraries, desk and scanner
##   LAMPHUDET_ARCHIVE, LAMPHUDET_SEALS_ARCHIVE: archives that were built elsewhere, taken as they are by all
##   but test and format; then nothing is proved, and no rt is needed
