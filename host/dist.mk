# host-archive: one archive of all that a machine without the Rattle kit needs, to be unpacked anywhere and used there. host-dist tests it. Included by
# host.mk, after install.mk and lessons.mk.

.PHONY: host-archive host-dist

DIST_NAME := lagunedo-$(LAGUNEDO_VERSION)
DIST_OUT := $(abspath target/dist)
DIST_TREE := $(DIST_OUT)/$(DIST_NAME)
DIST_DOC := $(DIST_TREE)/share/doc/lagunedo
DIST_ARCHIVE := $(DIST_OUT)/$(DIST_NAME)-x86_64-linux.tar.gz
DIST_PROGRAMS := desk listing eme2 lesson

# Out of what objdump -p prints.
NEWEST_GLIBC := sed -n 's/.* GLIBC_\([0-9.]*\)$$/\1/p' | sort -V | tail -n 1

# What make install puts in place, with a pkg-config file that goes by its own place; the programs of the lessons, which call them by their short
# names; the pages.
host-archive: $(HOST_OUT)/eme2 lesson-program
	rm -rf $(DIST_TREE) $(DIST_ARCHIVE)
	$(MAKE) --no-print-directory install PREFIX= DESTDIR=$(DIST_TREE) PC_PREFIX='$$$${pcfiledir}/../..'
	install -m 755 $(HOST_OUT)/eme2 $(DIST_TREE)/bin/lagunedo-eme2
	install -m 755 $(HOST_OUT)/lesson $(DIST_TREE)/bin/lagunedo-lesson
	install -m 644 $(HOST_MAN)/lagunedo-eme2.1 $(HOST_MAN)/lagunedo-lesson.1 $(DIST_TREE)/share/man/man1
	install -d $(DIST_TREE)/lessons $(DIST_DOC)/docs/changes
	for program in $(DIST_PROGRAMS); do ln -s ../bin/lagunedo-$$program $(DIST_TREE)/lessons/$$program || exit 1; done
	install -m 644 README.md host/c/example.c $(DIST_DOC)
	install -m 644 docs/*.md docs/*.svg $(DIST_DOC)/docs
	install -m 644 docs/changes/*.md $(DIST_DOC)/docs/changes
	sed -e 's/@VERSION@/$(LAGUNEDO_VERSION)/' -e "s/@GLIBC_LIBRARY@/$$(objdump -p $(DIST_TREE)/lib/liblagunedo.so | $(NEWEST_GLIBC))/" \
	    -e "s/@GLIBC_PROGRAMS@/$$(objdump -p $(DIST_TREE)/bin/* | $(NEWEST_GLIBC))/" host/dist.txt >$(DIST_TREE)/README.txt
	tar -C $(DIST_OUT) --sort=name --owner=0 --group=0 --numeric-owner -czf $(DIST_ARCHIVE) $(DIST_NAME)

host-dist: host-archive
	@tools/need pkg-config groff
	CC='$(CC) $(HOST_CFLAGS)' CXX='$(CXX) $(HOST_CXXFLAGS)' host/dist_test.sh $(DIST_ARCHIVE) $(abspath $(HOST_OUT)) $(LAGUNEDO_VERSION)
