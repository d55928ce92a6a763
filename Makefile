# Puts the proved library and programs in place, so that a yard without the kit can use them:
#
#     make install [PREFIX=/usr/local] [DESTDIR=..]
#     make uninstall, with the same words, takes them away again
#
# What is newer than all it is made of is taken as it is; only otherwise rt proves and builds it.

PREFIX ?= /usr/local
RT = rt
CC := $(if $(filter default,$(origin CC)),gcc,$(CC))

version := $(shell sed -n 's/^version = "\(.*\)"/\1/p' sys/Cargo.toml)
# The first part of the version: programs linked against another are not to be loaded with this shared object.
edition := $(firstword $(subst ., ,$(version)))
prefix := $(shell realpath --no-symlinks --canonicalize-missing -- '$(PREFIX)')
into = $(DESTDIR)$(prefix)

# With the folders, whose dates tell of files that are gone, but for the crates' own, where rt makes its out/.
sources := crates.txt $(shell find crates/*/* \( -name must-fail -o -name out \) -prune -o -print)
archive := target/staticlib/libaltairpeg.a
object := libaltairpeg.so.$(edition)
shared := target/shared/$(object)
programs := target/bin/nightcard target/bin/nightplan
installed := bin/nightcard bin/nightplan include/altairpeg.h lib/libaltairpeg.a lib/libaltairpeg.so lib/$(object) \
    lib/pkgconfig/altairpeg.pc

define pkgconfig
prefix=$(prefix)
includedir=$${prefix}/include
libdir=$${prefix}/lib

Name: altairpeg
Description: Multistage sorting plans for hump yards: derived, checked, replayed, priced and stored on night cards
Version: $(version)
Cflags: -I"$${includedir}"
Libs: -L"$${libdir}" -laltairpeg
endef
export pkgconfig

no-kit := target/ is not built or not current, and there is no $(RT) to prove and build it

# Runs rt, alone in target/ (./plan takes the same lock). What it makes gets the date of the start: so a source changed
# meanwhile is newer, and what rt left alone since no change reaches it is current.
define prove
@command -v $(RT) > /dev/null || { echo '$(no-kit)' >&2; exit 1; }
@mkdir -p target && touch target/begun
RT=$(RT) flock target/plan.lock tools/build $(1)
@touch -r target/begun $(2)
endef

.PHONY: all install uninstall
.NOTPARALLEL:
.DELETE_ON_ERROR:

all: $(archive) $(shared) $(programs)

$(archive): $(sources)
	$(call prove,staticlib altairpeg,$(archive))

$(programs) &: $(sources)
	$(call prove,check nightcard nightplan,$(programs))

$(shared): $(archive) Makefile
	mkdir -p $(@D)
	$(CC) -shared -o $@ -Wl,-soname,$(object) -Wl,-z,defs -Wl,--whole-archive $< -Wl,--no-whole-archive

install: all
	mkdir -p "$(into)/bin" "$(into)/include" "$(into)/lib/pkgconfig"
	install -m 755 $(programs) "$(into)/bin"
	install -m 644 include/altairpeg.h "$(into)/include"
	install -m 644 $(archive) "$(into)/lib"
	install -m 755 $(shared) "$(into)/lib"
	ln -sf $(object) "$(into)/lib/libaltairpeg.so"
	printf '%s\n' "$$pkgconfig" > "$(into)/lib/pkgconfig/altairpeg.pc"

uninstall:
	rm -f $(foreach file,$(installed),"$(into)/$(file)")
