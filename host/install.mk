# make install PREFIX=/usr/local DESTDIR=: puts what make has built in place.
# DESTDIR goes before every path and into no file, for those who make packages.
# Included by host.mk, after desk.mk, which names the file library and its header.

.PHONY: install host-install man-pages

# The listing program of 01, which the proof tool builds from crates/listing.
LAGUNEDO_LISTING ?= target/bin/listing

PREFIX ?= /usr/local
DESTDIR ?=

# What the pkg-config file has for its prefix.
PC_PREFIX ?= $(PREFIX)

# The version stands in the header alone.
LAGUNEDO_VERSION := $(shell sed -n 's/^.define LAGUNEDO_VERSION "\(.*\)"$$/\1/p' $(HOST_HEADER))
LAGUNEDO_SONAME := liblagunedo.so.$(firstword $(subst ., ,$(LAGUNEDO_VERSION)))

# The proved archive's code is position independent, so it is linked as it is. The linker refuses code that would have to be changed where
# it is loaded (text), and names that nobody has (defs).
HOST_SHARED := $(HOST_OUT)/liblagunedo.so.$(LAGUNEDO_VERSION)

$(HOST_SHARED): $(HOST_LIBRARY) $(HOST_HEADER)
	@mkdir -p $(HOST_OUT)
	$(CC) -shared -Wl,-soname,$(LAGUNEDO_SONAME) -Wl,-z,text -Wl,-z,defs -Wl,-z,now \
	    -Wl,--whole-archive $(HOST_LIBRARY) -Wl,--no-whole-archive -o $@

# lagunedo.3 is made from the header, the desk prints its own page, and those of the smaller programs stand in host/man.
HOST_MAN := $(HOST_OUT)/man

man-pages: $(HOST_HEADER) $(HOST_OUT)/desk
	@mkdir -p $(HOST_MAN)
	tools/man-page $(HOST_HEADER) >$(HOST_MAN)/lagunedo.3
	for page in host/man/*.1; do sed 's/@VERSION@/$(LAGUNEDO_VERSION)/' "$$page" >"$(HOST_MAN)/$${page##*/}" || exit 1; done
	$(HOST_OUT)/desk --man >$(HOST_MAN)/lagunedo-desk.1

INSTALL_TO = $(DESTDIR)$(PREFIX)
INSTALL_HEADERS := $(HOST_HEADER) $(FILE_HEADER)
INSTALL_LIBRARIES := $(HOST_LIBRARY) $(FILE_LIBRARY)
INSTALL_LIBS := -llagunedo_file -llagunedo
INSTALL_ARCHIVES := $(patsubst -l%,$${libdir}/lib%.a,$(INSTALL_LIBS))

# The name desk alone is too common for a directory shared with others.
install: $(INSTALL_HEADERS) $(INSTALL_LIBRARIES) $(HOST_SHARED) $(HOST_OUT)/desk $(LAGUNEDO_LISTING) man-pages
	install -d $(addprefix $(INSTALL_TO)/,include lib/pkgconfig bin share/man/man1 share/man/man3)
	install -m 644 $(INSTALL_HEADERS) $(INSTALL_TO)/include
	install -m 644 $(INSTALL_LIBRARIES) $(INSTALL_TO)/lib
	install -m 755 $(HOST_SHARED) $(INSTALL_TO)/lib
	ln -sf $(notdir $(HOST_SHARED)) $(INSTALL_TO)/lib/$(LAGUNEDO_SONAME)
	ln -sf $(LAGUNEDO_SONAME) $(INSTALL_TO)/lib/liblagunedo.so
	sed -e 's|@PREFIX@|$(PC_PREFIX)|' -e 's|@VERSION@|$(LAGUNEDO_VERSION)|' -e 's|@LIBS@|$(INSTALL_LIBS)|' \
	    -e 's|@ARCHIVES@|$(INSTALL_ARCHIVES)|' \
	    host/lagunedo.pc.in >$(HOST_OUT)/lagunedo.pc
	install -m 644 $(HOST_OUT)/lagunedo.pc $(INSTALL_TO)/lib/pkgconfig
	install -m 755 $(HOST_OUT)/desk $(INSTALL_TO)/bin/lagunedo-desk
	install -m 755 $(LAGUNEDO_LISTING) $(INSTALL_TO)/bin/lagunedo-listing
	install -m 644 $(HOST_MAN)/lagunedo.3 $(INSTALL_TO)/share/man/man3
	install -m 644 $(HOST_MAN)/lagunedo-desk.1 $(HOST_MAN)/lagunedo-listing.1 $(INSTALL_TO)/share/man/man1

$(LAGUNEDO_LISTING):
	@echo "$@ is not there: make builds it" >&2; exit 1

# Twice into folders of our own: to be used there, and as a package would have it.
INSTALL_PREFIX := $(abspath $(HOST_OUT)/prefix)
INSTALL_STAGE := $(abspath $(HOST_OUT)/stage)

host-install:
	@tools/need pkg-config groff
	rm -rf $(INSTALL_PREFIX) $(INSTALL_STAGE)
	$(MAKE) --no-print-directory install PREFIX=$(INSTALL_PREFIX) DESTDIR=
	$(MAKE) --no-print-directory install PREFIX=/usr DESTDIR=$(INSTALL_STAGE)
	CC='$(CC) $(HOST_CFLAGS)' CXX='$(CXX) $(HOST_CXXFLAGS)' host/install_test.sh $(INSTALL_PREFIX) $(INSTALL_STAGE) $(LAGUNEDO_VERSION)
