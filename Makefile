# Builds the programs. Installs them, their tools, manual pages and completions, or takes them away again; or packs them.
# Builds the library for C.
#
#     make programs
#     make
#     make install
#     make install PREFIX=$HOME/.local
#     make install PREFIX=/usr DESTDIR=/tmp/package
#     make uninstall
#     make dist
#     make deb
#     make deb MAINTAINER='NAME <ADDRESS>'
#     make wheel
#     make lib
#     make bench
#     make quick
#     make contracts
#     make contracts CONTRACTS=FOLDER
#     make check
#
# PREFIX is where they are to be used, /usr/local where nothing is said. DESTDIR is put before each path, for whoever
# makes a package. `make dist` writes out/sllink-VERSION-linux-ARCHITECTURE.tar.gz, whose folders work wherever they
# lie beside each other; `make deb` writes out/sllink_VERSION_ARCHITECTURE.deb, and wants dpkg-deb. `make wheel` writes
# out/sllink-VERSION-py3-none-any.whl, the Python module alone, which is in the archive too. Each writes out/SHA256SUMS,
# of all packages that are there. `make programs` proves and builds the programs, by the kit. The manual pages, but for
# that of sllink, and the completions are made into PAGES, which is out where nothing is said, by python3 from what the
# programs and the tools print with --help: by `make` alone, and before they are installed or packed. `make
# lib` proves and builds libsllink.a and libsllink.so in LIBRARIES, which is out where nothing is said, and wants the
# kit, cc, ld, objcopy and ar. Where they are there, they are installed and packed with the programs, with their header
# and what pkg-config reads.

PREFIX = /usr/local
DESTDIR =

BIN = $(PREFIX)/bin
MAN = $(PREFIX)/share/man/man1
BASH_COMPLETIONS = $(PREFIX)/share/bash-completion/completions
ZSH_COMPLETIONS = $(PREFIX)/share/zsh/site-functions
FISH_COMPLETIONS = $(PREFIX)/share/fish/vendor_completions.d
# The tools look for their module in ../share from the folder that they are in.
SHARE = $(PREFIX)/share/sllink
MODULE = $(SHARE)/python/sllink
# The packages in the module.
PACKAGES = $(patsubst python/sllink/%/__init__.py,%,$(wildcard python/sllink/*/__init__.py))
INCLUDE = $(PREFIX)/include
LIB = $(PREFIX)/lib

PROGRAM = crates/sllink/out/sllink
# The crates of the programs beside sllink. That of sllink_x is installed as sllink-x: the one that $SLLINK_X names, else
# the one that `rt run` leaves.
PROGRAMS = sllink_compare sllink_frames sllink_merge
built = $(or $($(shell echo $(1) | tr a-z A-Z)),crates/$(1)/out/$(1))
BESIDE = $(foreach it,$(PROGRAMS),"$(call built,$(it))")
BUILD = for it in sllink $(PROGRAMS); do (cd crates/$$it && $(RT) run -- --version) || exit 1; done
# How many checks run at a time: one a processor, with 4 GB each. rt by itself plans for more memory than they take.
LANES = $(shell awk -v n=$$(nproc) '/MemAvailable/ {it = int($$2 / 4e6); print it < 1 ? 1 : it < n ? it : n}' /proc/meminfo)
LEFT = for it in sllink $(PROGRAMS); do \
  [ crates/$$it/out/$$it -nt out/gate ] || (cd crates/$$it && $(RT) run -- --version) || exit 1; done
RT = rt
PAGES = out
TOOLS = $(notdir $(wildcard tools/sllink-*))
NAMES = $(subst _,-,$(PROGRAMS)) $(TOOLS)
INSTALL = install

# The number in it rises when a program that was linked to the library would have to be built again.
SONAME = libsllink.so.1
LIBRARIES = out
CALLS = crates/sl_c/out/libsl_c.a
# The kit's way to malloc, realloc and free, which lies beside what it says is to be read first.
HEAP = $(dir $(shell rt doc 2> /dev/null))c/liblibc_c.a
OBJCOPY = objcopy

.PHONY: all programs install uninstall built pages dist deb wheel lib bench quick contracts check
.SILENT: install uninstall dist deb wheel

all: pages
	@echo "$(PROGRAM) is built; 'make install' installs it under $(PREFIX)"

programs:
	@$(BUILD)

built:
	@for it in "$(PROGRAM)" $(BESIDE); do \
	  test -x "$$it" || { echo "$$it isn't built yet; 'make programs' builds it" >&2; exit 1; }; \
	done

pages: built
	@man/from-help "$(PAGES)" "$(PROGRAM)" $(BESIDE)

# bash and fish look for the completions of a program or tool under its name.
install: pages
	$(INSTALL) -d "$(DESTDIR)$(BIN)" "$(DESTDIR)$(MAN)" "$(DESTDIR)$(BASH_COMPLETIONS)" \
	  "$(DESTDIR)$(ZSH_COMPLETIONS)" "$(DESTDIR)$(FISH_COMPLETIONS)" "$(DESTDIR)$(MODULE)"
	$(INSTALL) -m 755 "$(PROGRAM)" "$(DESTDIR)$(BIN)/sllink"
	$(foreach it,$(PROGRAMS),$(INSTALL) -m 755 "$(call built,$(it))" "$(DESTDIR)$(BIN)/$(subst _,-,$(it))" &&) true
	$(INSTALL) -m 755 $(TOOLS:%=tools/%) "$(DESTDIR)$(BIN)"
	$(INSTALL) -m 644 python/sllink/*.py python/sllink/py.typed "$(DESTDIR)$(MODULE)"
	for package in $(PACKAGES); do \
	  $(INSTALL) -d "$(DESTDIR)$(MODULE)/$$package" && \
	  $(INSTALL) -m 644 "python/sllink/$$package"/*.py "$(DESTDIR)$(MODULE)/$$package" || exit 1; \
	done
	$(INSTALL) -m 644 man/sllink.1 $(NAMES:%="$(PAGES)/%.1") "$(DESTDIR)$(MAN)"
	$(INSTALL) -m 644 "$(PAGES)/sllink.bash" "$(DESTDIR)$(BASH_COMPLETIONS)/sllink"
	$(INSTALL) -m 644 "$(PAGES)/_sllink" "$(DESTDIR)$(ZSH_COMPLETIONS)/_sllink"
	$(INSTALL) -m 644 "$(PAGES)/sllink.fish" "$(DESTDIR)$(FISH_COMPLETIONS)/sllink.fish"
	for name in $(NAMES); do \
	  ln -sf sllink "$(DESTDIR)$(BASH_COMPLETIONS)/$$name" && \
	  ln -sf sllink.fish "$(DESTDIR)$(FISH_COMPLETIONS)/$$name.fish" || exit 1; \
	done
	if [ -e "$(LIBRARIES)/libsllink.a" ]; then \
	  $(INSTALL) -d "$(DESTDIR)$(INCLUDE)" "$(DESTDIR)$(LIB)/pkgconfig" && \
	  $(INSTALL) -m 644 include/sllink.h "$(DESTDIR)$(INCLUDE)" && \
	  $(INSTALL) -m 644 include/sllink.pc "$(DESTDIR)$(LIB)/pkgconfig" && \
	  $(INSTALL) -m 644 "$(LIBRARIES)/libsllink.a" "$(LIBRARIES)/$(SONAME)" "$(DESTDIR)$(LIB)" && \
	  ln -sf $(SONAME) "$(DESTDIR)$(LIB)/libsllink.so"; \
	fi

# The library for C: what the kit builds of the calls, with its way to the heap, as one file in which the calls alone can
# be seen from outside.
lib:
	cd crates/sl_c && rt lib
	$(INSTALL) -d "$(LIBRARIES)"
	$(LD) -r --whole-archive -o "$(LIBRARIES)/sllink.o" $(CALLS) $(HEAP)
	$(OBJCOPY) --wildcard --keep-global-symbol 'sllink_*' "$(LIBRARIES)/sllink.o"
	rm -f "$(LIBRARIES)/libsllink.a"
	$(AR) -rcsD "$(LIBRARIES)/libsllink.a" "$(LIBRARIES)/sllink.o"
	$(CC) -shared -Wl,-soname,$(SONAME) -Wl,-z,now,-z,noexecstack,--no-undefined -o "$(LIBRARIES)/$(SONAME)" \
	  "$(LIBRARIES)/sllink.o"
	ln -sf $(SONAME) "$(LIBRARIES)/libsllink.so"
	rm "$(LIBRARIES)/sllink.o"

# The files go, the folders stay, but for the one that has nothing else.
uninstall:
	for name in sllink $(NAMES); do \
	  rm -f "$(DESTDIR)$(BIN)/$$name" "$(DESTDIR)$(MAN)/$$name.1" "$(DESTDIR)$(BASH_COMPLETIONS)/$$name" \
	    "$(DESTDIR)$(FISH_COMPLETIONS)/$$name.fish" || exit 1; \
	done
	rm -f "$(DESTDIR)$(ZSH_COMPLETIONS)/_sllink" "$(DESTDIR)$(INCLUDE)/sllink.h" "$(DESTDIR)$(LIB)/pkgconfig/sllink.pc" \
	  "$(DESTDIR)$(LIB)/libsllink.a" "$(DESTDIR)$(LIB)/libsllink.so" "$(DESTDIR)$(LIB)/$(SONAME)"
	rm -rf "$(DESTDIR)$(SHARE)"

# Packages are made in OUT, with the date of the last change as the date of each file, so that they come out the same.
OUT = out
VERSION = $(shell "$(PROGRAM)" --version 2> /dev/null | cut -d ' ' -f 2)
ARCHITECTURE = $(shell dpkg --print-architecture 2> /dev/null || uname -m)
SOURCE_DATE_EPOCH ?= $(shell git log -1 --format=%ct 2> /dev/null || date +%s)
export SOURCE_DATE_EPOCH
PACKED = sllink-$(VERSION)-linux-$(ARCHITECTURE)
DEBIAN = sllink_$(VERSION)_$(ARCHITECTURE)

SUMS = cd "$(OUT)" && for it in *.tar.gz *.deb *.whl; do [ ! -e "$$it" ] || sha256sum "$$it"; done > SHA256SUMS

dist: built
	rm -rf "$(OUT)/$(PACKED)" "$(OUT)/$(PACKED).tar.gz"
	$(MAKE) -s install PREFIX= DESTDIR="$(OUT)/$(PACKED)"
	python/wheel "$(OUT)/$(PACKED)" > /dev/null
	cp CHANGELOG.md "$(OUT)/$(PACKED)"
	printf '%s\n' "sllink, the programs and tools beside it, manual pages, completions and Python module. This folder may" \
	  "lie anywhere; the folders in it have to stay beside each other. The programs need glibc $(LIBC) or later, programs" \
	  "and library a processor of x86-64-v2, the tools Python 3.8 or later. With D for the folder's path:" "" \
	  '    export PATH=D/bin:$$PATH                                     programs, tools, manual pages' \
	  '    export XDG_DATA_DIRS=D/share:/usr/local/share:/usr/share    completions for bash and fish' \
	  '    fpath=(D/share/zsh/site-functions $$fpath)                   those for zsh, before compinit' \
	  '    export PYTHONPATH=D/share/sllink/python                     the module, where pip has not installed the wheel' \
	  '    export PKG_CONFIG_PATH=D/lib/pkgconfig LD_LIBRARY_PATH=D/lib    the library for C, where lib is there' \
	  '    export SLLINK_LIBRARY=D/lib/libsllink.so                    the same, where pip has installed the wheel' "" \
	  "Begin with sllink-identify FILE, or two files: it says what a station's file holds, and prints the commands that" \
	  "read it: sllink-frames takes the frames out, sllink checks them. Then sllink-compare says which packets only one of" \
	  "two recordings has, sllink-merge makes one of several, and sllink-report a page. Each has --help and a manual" \
	  "page." \
	  "CHANGELOG.md says what changed. No licence has been chosen for sllink yet. Ask whoever gave you this archive" \
	  "what you may do with it." > "$(OUT)/$(PACKED)/README"
	tar -C "$(OUT)" --sort=name --mtime="@$(SOURCE_DATE_EPOCH)" --mode=u=rwX,go=rX --owner=0 --group=0 --numeric-owner \
	  -cf - "$(PACKED)" | gzip -9n > "$(OUT)/$(PACKED).tar.gz"
	rm -rf "$(OUT)/$(PACKED)"
	$(SUMS)
	echo "$(OUT)/$(PACKED).tar.gz"

wheel:
	python/wheel "$(OUT)"
	$(SUMS)

# Nothing in the package says who built it, or where. Debian's zsh has the completions of packages in a folder of its
# own, and doesn't look into site-functions under /usr. Of the C library the package wants the last version that a
# program names. For its size a folder counts as a KiB, and a file as whole ones, which is the same on each file system.
MAINTAINER = unnamed <unnamed@invalid>
LIBC = $(shell grep -a -h -o 'GLIBC_[0-9][0-9.]*' "$(PROGRAM)" $(BESIDE) $(wildcard $(LIBRARIES)/$(SONAME)) | sed 's/GLIBC_//' | sort -V | tail -n 1)
SIZE = find "$(ROOM)/usr" -printf '%y %s\n' | awk '{ k += /^f/ ? int(($$2 + 1023) / 1024) : 1 } END { print k }'
ROOM = $(OUT)/$(DEBIAN)
DOC = $(ROOM)/usr/share/doc/sllink

deb: built
	command -v dpkg-deb > /dev/null || { echo "dpkg-deb isn't there; 'make dist' makes a tarball" >&2; exit 1; }
	rm -rf "$(ROOM)" "$(ROOM).deb"
	$(MAKE) -s install PREFIX=/usr ZSH_COMPLETIONS=/usr/share/zsh/vendor-completions DESTDIR="$(ROOM)"
	gzip -9n "$(ROOM)/usr/share/man/man1/"*.1
	$(INSTALL) -d "$(ROOM)/DEBIAN" "$(ROOM)/usr/lib/python3/dist-packages" "$(DOC)"
	ln -s ../../../share/sllink/python/sllink "$(ROOM)/usr/lib/python3/dist-packages/sllink"
	echo "No licence has been chosen for sllink yet. Ask whoever gave you this package what you may do with it." \
	  > "$(DOC)/copyright"
	printf '%s\n' "sllink ($(VERSION)) unstable; urgency=medium" "" "  * CHANGELOG.md.gz says what changed." "" \
	  " -- $(MAINTAINER)  $$(date -u -R -d "@$(SOURCE_DATE_EPOCH)")" | gzip -9n > "$(DOC)/changelog.gz"
	gzip -9n < CHANGELOG.md > "$(DOC)/CHANGELOG.md.gz"
	printf '%s\n' "Package: sllink" "Version: $(VERSION)" "Architecture: $(ARCHITECTURE)" \
	  "Maintainer: $(MAINTAINER)" "Section: science" "Priority: optional" \
	  "Installed-Size: $$($(SIZE))" \
	  "Depends: libc6 (>= $(LIBC))" "Recommends: python3 (>= 3.8)" \
	  "Description: recordings of TM and TC transfer frames, listed, checked, compared" \
	  " sllink reads a recording of a spacecraft's link: TM and TC transfer frames and" \
	  " the space packets in them. It lists the frames, checks the recording, lists its" \
	  " packets, or writes its normal form, by which two recordings are compared." \
	  " ." \
	  " The tools around it, and their module, want Python 3. Where the library for C" \
	  " was built, it is there too." > "$(ROOM)/DEBIAN/control"
	printf '%s\n' '#!/bin/sh' 'set -e' 'find /usr/share/sllink -name __pycache__ -prune -exec rm -rf {} +' \
	  > "$(ROOM)/DEBIAN/prerm"
	chmod 644 "$(DOC)"/* "$(ROOM)/DEBIAN/control"
	chmod 755 "$(ROOM)/DEBIAN/prerm"
	dpkg-deb --root-owner-group --build "$(ROOM)" "$(ROOM).deb" > /dev/null
	rm -rf "$(ROOM)"
	$(SUMS)
	echo "$(ROOM).deb"

# Times the program beside the hand-written one in bench/, and compares what they write.
bench:
	@bench/run "$(PROGRAM)"

# Runs all tests without proving anything.
quick:
	for crate in sl_tests sl_link_tests sllink; do (cd crates/$$crate && rt try --test) || exit 1; done

# Quotes what the crates promise, each in its page of docs/contracts/: where a change of the sources leaves these pages
# as they are, no clause is gone or another. In a folder CONTRACTS it writes pages that also have the definitions that
# clauses cite. It wants neither the program nor the kit.
contracts:
	@python3 -B tests/lib/contracts.py $(CONTRACTS)

# The gate, then all that is tried on the programs. The last line counts both. The gate leaves each program in its crate's
# out/, also one that it refuses, which that line counts; one that is older than its beginning is proved and built here.
check:
	@mkdir -p out && touch out/gate
	@unset MAKEFLAGS MFLAGS MAKELEVEL; RT_JOBS=$${RT_JOBS:-$(LANES)} python3 -B tests/lib/counts.py '$(RT) ci' '($(LEFT)) && tests/all'
