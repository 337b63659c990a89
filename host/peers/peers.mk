# The benchmark beside peers, which docs/SPEED.md tells. Included by
# host/host.mk, whose variables it uses. The peers' packages have to be there
# before anything is built, so its script asks for the programs.

PEERS_OUT := target/peers
PEERS_SOURCES := $(wildcard host/peers/*.c) host/c/fill.c host/c/record.c host/peers/place.S
PEERS_HEADERS := $(wildcard host/peers/*.h) host/c/fill.h host/c/record.h $(HOST_HEADER)
PEERS_LIBRARIES := $(HOST_LIBRARY) $(LAGUNEDO_STATICLIB)/libprobe.a
PEERS_GO := $(wildcard host/peers/eme/*.go)

# Where the linker puts code changes its speed: the same loop may cross a line
# of the processor's cache or not. A line has 64 bytes, and the library's
# functions begin at multiples of 16, so these are all places there are.
PEERS_PLACES := 16 32 48 64

# A mask of EME2 is two words. GCC's vectoriser would join them and lose time
# in moving them, which would make every peer look slower than it is.
# endian.h asks for more than C99.
PEERS_CFLAGS := $(HOST_CFLAGS) -O3 -fno-tree-slp-vectorize -D_DEFAULT_SOURCE

.PHONY: host-bench peers-programs host-versions versions-before

host-bench:
	PEERS_PLACES='$(PEERS_PLACES)' host/peers/run

peers-programs: $(PEERS_PLACES:%=$(PEERS_OUT)/bench-%) $(PEERS_OUT)/eme

$(PEERS_OUT)/bench-%: $(PEERS_SOURCES) $(PEERS_HEADERS) $(PEERS_LIBRARIES)
	@mkdir -p $(PEERS_OUT)
	$(CC) $(PEERS_CFLAGS) -DPLACE=$* -Ihost/include -Ihost/c -o $@ \
	    $(PEERS_SOURCES) $(PEERS_LIBRARIES) -lcrypto -lnettle -lbearssl

# Debian puts packages for Go where this GOPATH finds them.
$(PEERS_OUT)/eme: $(PEERS_GO)
	@mkdir -p $(PEERS_OUT)
	GO111MODULE=off GOPATH=/usr/share/gocode \
	    GOCACHE=$(CURDIR)/$(PEERS_OUT)/go-cache go build -o $@ ./host/peers/eme

# make bench-versions BEFORE=FOLDER: this build of the library beside the one whose liblagunedo.a and libprobe.a stand in the folder, in one run.
# The folder is an absolute path, or goes by the root of the repository.
VERSIONS_SOURCES := host/peers/versions/main.c $(patsubst %,host/peers/%.c,ciphers eme2 ours timed) host/c/fill.c host/peers/place.S
VERSIONS_PROGRAMS := $(foreach build,before after,$(PEERS_PLACES:%=$(PEERS_OUT)/$(build)-%))

host-versions: versions-before $(VERSIONS_PROGRAMS)
	@PEERS_PLACES='$(PEERS_PLACES)' host/peers/versions/run

versions-before:
	@[ -f '$(BEFORE)/libprobe.a' ] || { echo "BEFORE=FOLDER has to name the libraries of an earlier build" >&2; exit 1; }

# Which folder it was the last time is not known, so these are linked anew.
$(PEERS_OUT)/before-%: versions-before $(VERSIONS_SOURCES) $(PEERS_HEADERS)
	@mkdir -p $(PEERS_OUT)
	@$(CC) $(PEERS_CFLAGS) -DPLACE=$* -Ihost/include -Ihost/c -Ihost/peers -o $@ $(VERSIONS_SOURCES) $(BEFORE)/liblagunedo.a $(BEFORE)/libprobe.a

$(PEERS_OUT)/after-%: $(VERSIONS_SOURCES) $(PEERS_HEADERS) $(PEERS_LIBRARIES)
	@mkdir -p $(PEERS_OUT)
	@$(CC) $(PEERS_CFLAGS) -DPLACE=$* -Ihost/include -Ihost/c -Ihost/peers -o $@ $(VERSIONS_SOURCES) $(PEERS_LIBRARIES)
