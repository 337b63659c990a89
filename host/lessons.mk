# The programs that docs/LESSONS.md has its readers run, and the check that
# they print what it says. Included by host.mk, after desk.mk.

.PHONY: host-eme2 host-lessons lesson-program

host-lessons: host-eme2 $(HOST_OUT)/desk lesson-program
	tools/made-again --check
	tools/numbers
	tools/lessons

host-eme2: $(HOST_OUT)/eme2
	host/c/eme2_test.sh $(abspath $< vectors/eme2/own-second-implementation.txt $(HOST_OUT))

EME2_FILES := host/c/eme2.c $(DESK_COMMON)

$(HOST_OUT)/eme2: $(EME2_FILES) $(DESK_HEADERS) $(FILE_LIBRARY) $(HOST_LIBRARY)
	@mkdir -p $(HOST_OUT)
	$(CC) $(DESK_CFLAGS) -o $@ $(EME2_FILES) $(FILE_LIBRARY) $(HOST_LIBRARY)

# Whether it has to be built anew is for cargo to see.
lesson-program:
	@tools/need cargo
	@mkdir -p $(HOST_OUT)
	$(HOST_CARGO) build $(HOST_CARGO_FLAGS) --package second --example lesson
	cp target/cargo/release/examples/lesson $(HOST_OUT)/lesson
