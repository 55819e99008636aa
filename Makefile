# Installs and packs the library, its header and the tool. Nothing is proved here: './library' proves the crates and writes the archive.
#
#   make                      the tool, over the archive (cargo)
#   make install PREFIX=..    header, archive, pkg-config file, man pages, and the tool where there is one for this machine
#   make dist                 target/dist/hondivole-VERSION-x86_64.tar.gz: the same with checksums and the kit's identity, for a machine
#                             without the kit, with the Rust crate and the tool as source
#   make deb                  target/dist/hondivole_VERSION_amd64.deb, the same as a Debian package (needs dpkg-deb)
#
# The archive is for x86-64, and a tool of another machine is of use there only while the bridge of tests/bridge stands: it is not packed.

PREFIX ?= /usr/local
DESTDIR ?=
ARCHIVE ?= target/staticlib/libhondivole.a
VERSION := $(shell sed -n 's/^\#define HONDIVOLE_VERSION "\(.*\)"/\1/p' include/hondivole.h)
MACHINE := $(shell uname -m)
ifeq ($(MACHINE),x86_64)
TOOL ?= target/cargo/release/hondivole
endif
NAME := hondivole-$(VERSION)-x86_64
TREE := target/dist/$(NAME)
DEB := target/dist/deb
# What the tool is linked with, as Debian names it.
NEEDS := libc6, libgcc-s1
# The time that packed files get; that of the last commit where there is git, so that a tree packs the same twice.
SOURCE_DATE_EPOCH ?= $(shell git log -1 --format=%ct 2>/dev/null || echo 0)

.PHONY: all install dist deb

all: $(TOOL)

$(ARCHIVE):
	./library

target/cargo/release/hondivole: $(ARCHIVE) $(wildcard tool/src/*.rs tool/src/commands/*.rs bindings/rust/src/*.rs)
	cd tool && HONDIVOLE_LIB_DIR="$(abspath $(dir $(ARCHIVE)))" CARGO_TARGET_DIR=../target/cargo cargo --offline build --release

# Where the archive will be found once installed is all that is filled in.
define pc
sed -e 's|@PREFIX@|$(1)|' -e 's|@VERSION@|$(VERSION)|' -e "s|@KIT@|$$(cat KIT)|" hondivole.pc.in
endef

# put FOLDER PREFIX-IN-PC: the files of a prefix.
define put
install -d "$(1)/include" "$(1)/lib/pkgconfig" "$(1)/share/man/man1" "$(1)/share/man/man3" "$(1)/share/doc/hondivole"
install -m 644 include/hondivole.h "$(1)/include/"
install -m 644 "$(ARCHIVE)" "$(1)/lib/libhondivole.a"
$(call pc,$(2)) > "$(1)/lib/pkgconfig/hondivole.pc"
chmod 644 "$(1)/lib/pkgconfig/hondivole.pc"
install -m 644 docs/man/hondivole.1 "$(1)/share/man/man1/"
install -m 644 docs/man/hondivole.3 "$(1)/share/man/man3/"
install -m 644 LICENSE KIT docs/TOOL.md docs/RULES.md docs/FORMAT.md docs/flow.svg docs/table.svg "$(1)/share/doc/hondivole/"
$(if $(TOOL),install -d "$(1)/bin" && install -m 755 "$(TOOL)" "$(1)/bin/hondivole")
endef

install: $(ARCHIVE) $(TOOL)
	$(call put,$(DESTDIR)$(PREFIX),$(PREFIX))

# Unpacked anywhere, the pkg-config file finds the archive beside it.
dist: $(ARCHIVE) $(TOOL)
	rm -rf "$(TREE)"
	mkdir -p "$(TREE)"
	$(call put,$(TREE),$${pcfiledir}/../..)
	cp KIT LICENSE README.md "$(TREE)/"
	mkdir -p "$(TREE)/src/bindings"
	cp -r bindings/rust "$(TREE)/src/bindings/"
	cp -r tool include "$(TREE)/src/"
	rm -rf "$(TREE)/src/bindings/rust/target" "$(TREE)/src/tool/target"
	cd "$(TREE)" && find . -type f ! -name SHA256SUMS -printf '%P\0' | LC_ALL=C sort -z | xargs -0 sha256sum > SHA256SUMS
	tar --sort=name --owner=0 --group=0 --numeric-owner --mtime=@$(SOURCE_DATE_EPOCH) --mode=u+rw,go+r,go-w -C target/dist -cf - "$(NAME)" | gzip -9n > "$(TREE).tar.gz"
	cd target/dist && sha256sum "$(NAME).tar.gz" > "$(NAME).tar.gz.sha256"
	@echo "wrote $(TREE).tar.gz"

deb: $(ARCHIVE) $(TOOL)
	rm -rf "$(DEB)"
	mkdir -p "$(DEB)/DEBIAN"
	$(call put,$(DEB)/usr,/usr)
	gzip -9n "$(DEB)/usr/share/man/man1/hondivole.1" "$(DEB)/usr/share/man/man3/hondivole.3"
	cp LICENSE "$(DEB)/usr/share/doc/hondivole/copyright"
	{ echo "Package: hondivole"; echo "Version: $(VERSION)"; echo "Architecture: amd64"; echo "Section: libdevel"; echo "Priority: optional"; \
	  $(if $(TOOL),echo "Depends: $(NEEDS)";) echo "Maintainer: the order desk <desk@localhost>"; \
	  echo "Description: order tables of a treasury house, library and tool"; echo " Proved with $$(cat KIT)."; } > "$(DEB)/DEBIAN/control"
	dpkg-deb --root-owner-group --build "$(DEB)" "target/dist/hondivole_$(VERSION)_amd64.deb"
