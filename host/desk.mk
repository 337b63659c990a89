# The file library, the desk program over it, and what their tests need.
# Included by host.mk.

.PHONY: host-desk

host-desk: $(addprefix $(HOST_OUT)/,desk desk-stops make_record make_unit sha256 file_calls server-stops)
	host/c/desk_test.sh $(abspath $^ $(HOST_OUT))

# realpath is POSIX's, but of its X/Open part.
DESK_CFLAGS := $(HOST_CFLAGS) -D_XOPEN_SOURCE=700 -Ihost/include

FILE_HEADER := host/include/lagunedo_file.h
FILE_FILES := $(wildcard host/c/file/*.c)
FILE_HEADERS := $(wildcard host/c/file/*.h) $(FILE_HEADER)
FILE_LIBRARY := $(HOST_OUT)/liblagunedo_file.a
FILE_OBJECTS := $(patsubst host/c/file/%.c,$(HOST_OUT)/file/%.o,$(FILE_FILES))

$(HOST_OUT)/file/%.o: host/c/file/%.c $(FILE_HEADERS)
	@mkdir -p $(@D)
	$(CC) $(DESK_CFLAGS) -fPIC -c -o $@ $<

$(FILE_LIBRARY): $(FILE_OBJECTS)
	rm -f $@
	$(AR) rcs $@ $^

DESK_FILES := host/c/desk.c host/c/record.c $(wildcard host/c/desk/*.c)
DESK_HEADERS := host/c/record.h $(wildcard host/c/desk/*.h) $(FILE_HEADERS) $(HOST_HEADER)

$(HOST_OUT)/desk: $(DESK_FILES) $(DESK_HEADERS) $(FILE_LIBRARY) $(HOST_LIBRARY)
	@mkdir -p $(HOST_OUT)
	$(CC) $(DESK_CFLAGS) -o $@ $(DESK_FILES) $(FILE_LIBRARY) $(HOST_LIBRARY)

# The same with points at which a test may end it, or hold it up.
DESK_STOPS_FILES := $(DESK_FILES) $(FILE_FILES) host/c/file/test/stops.c

$(HOST_OUT)/desk-stops: $(DESK_STOPS_FILES) $(DESK_HEADERS) $(HOST_LIBRARY)
	@mkdir -p $(HOST_OUT)
	$(CC) $(DESK_CFLAGS) -DDESK_STOPS -o $@ $(DESK_STOPS_FILES) $(HOST_LIBRARY)

# What the desk's small programs share with it.
DESK_COMMON := $(patsubst %,host/c/desk/%.c,input say status)
DESK_RECORD_FILES := host/c/desk/test/make_record.c host/c/record.c host/c/desk/number.c $(DESK_COMMON)

$(HOST_OUT)/make_record: $(DESK_RECORD_FILES) $(DESK_HEADERS) $(FILE_LIBRARY) $(HOST_LIBRARY)
	@mkdir -p $(HOST_OUT)
	$(CC) $(DESK_CFLAGS) -o $@ $(DESK_RECORD_FILES) $(FILE_LIBRARY) $(HOST_LIBRARY)

DESK_UNIT_FILES := host/c/desk/test/make_unit.c host/c/desk/number.c $(DESK_COMMON)

$(HOST_OUT)/make_unit: $(DESK_UNIT_FILES) $(DESK_HEADERS) $(FILE_LIBRARY) $(HOST_LIBRARY)
	@mkdir -p $(HOST_OUT)
	$(CC) $(DESK_CFLAGS) -o $@ $(DESK_UNIT_FILES) $(FILE_LIBRARY) $(HOST_LIBRARY)

DESK_SHA256_FILES := host/c/desk/test/sha256.c $(patsubst %,host/c/desk/%.c,sha256 fingerprint)

$(HOST_OUT)/sha256: $(DESK_SHA256_FILES) $(DESK_HEADERS) $(FILE_LIBRARY)
	@mkdir -p $(HOST_OUT)
	$(CC) $(DESK_CFLAGS) -o $@ $(DESK_SHA256_FILES) $(FILE_LIBRARY)

# The job server in small of host/c/server.c, with the same points.
SERVER_STOPS_FILES := host/c/server.c $(FILE_FILES) host/c/file/test/stops.c

$(HOST_OUT)/server-stops: $(SERVER_STOPS_FILES) $(FILE_HEADERS) $(HOST_HEADER) $(HOST_LIBRARY)
	@mkdir -p $(HOST_OUT)
	$(CC) $(DESK_CFLAGS) -DDESK_STOPS -o $@ $(SERVER_STOPS_FILES) $(HOST_LIBRARY)

# The library's calls, one by one.
$(HOST_OUT)/file_calls: host/c/file/test/calls.c $(FILE_HEADER) $(FILE_LIBRARY)
	@mkdir -p $(HOST_OUT)
	$(CC) $(DESK_CFLAGS) -Wl,--wrap=fsync,--wrap=renameat -o $@ $< $(FILE_LIBRARY)
