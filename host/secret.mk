# Whether the machine code reads a table, or branches, at a place that depends on a key or a text. Included by host.mk, after install.mk, which
# names the shared library.

.PHONY: host-secret

SECRET_FILES := host/c/secret.c $(wildcard host/c/secret/*.c) host/c/fill.c host/c/record.c
SECRET_HEADERS := host/c/secret/secret.h host/c/fill.h host/c/record.h $(HOST_HEADER)
PROBE_LIBRARY := $(LAGUNEDO_STATICLIB)/libprobe.a
SECRET_PROGRAMS := $(addprefix $(HOST_OUT)/,secret tables)

# The package of valgrind has its headers too.
host-secret:
	@tools/need valgrind
	@$(MAKE) --no-print-directory $(SECRET_PROGRAMS) $(HOST_SHARED)
	host/c/secret_test.sh $(abspath $(SECRET_PROGRAMS) $(HOST_HEADER) $(HOST_LIBRARY) $(HOST_SHARED) $(PROBE_LIBRARY) $(HOST_OUT))

$(HOST_OUT)/secret: $(SECRET_FILES) $(SECRET_HEADERS) $(HOST_LIBRARY) $(PROBE_LIBRARY)
	@mkdir -p $(HOST_OUT)
	$(CC) $(HOST_CFLAGS) -Ihost/include -Ihost/c -o $@ $(SECRET_FILES) $(HOST_LIBRARY) $(PROBE_LIBRARY)

$(HOST_OUT)/tables: host/c/tables.c host/c/fill.c host/c/fill.h
	@mkdir -p $(HOST_OUT)
	$(CC) $(HOST_CFLAGS) -o $@ host/c/tables.c host/c/fill.c
