# make        proves what changed of the library, the listing and demand 3, builds the library for C, the listing and the desk, and runs the
#             listing on 01's example
# make check  for daily work: what changed is proved again, then every program and every test of the host is run; no edit that must fail
# make test   the whole gate: every proof, every edit that must fail, every program, and the host's tests
# make bench  the benchmark beside other people's AES, written into docs/SPEED.md and docs/speed.svg (it is no test)
# make bench-versions BEFORE=FOLDER  the library beside an earlier build of it, whose archives stand in the folder (host/peers/versions)
# make fuzz   the fuzz target under libFuzzer, FUZZ_RUNS scripts of calls (host/fuzz.mk)
# make dist   target/dist/lagunedo-VERSION-x86_64-linux.tar.gz, for machines without the kit (host/dist.mk)
# make install PREFIX=/usr/local  puts headers, libraries, pkg-config file, desk, listing and man pages in place, after make
.PHONY: all check test bench bench-versions fuzz dist libraries listing

all:
	@tools/need rt cc
	@tools/build listing claims -- lagunedo
	@$(MAKE) --no-print-directory $(HOST_OUT)/desk host-example
	$(LAGUNEDO_LISTING) <crates/listing/stdin

check:
	@tools/gate --changed

test:
	@tools/gate

libraries:
	@tools/need rt cc
	@tools/build -- lagunedo probe

listing:
	@tools/need rt cc
	@tools/build listing

bench: libraries
	@$(MAKE) --no-print-directory host-bench

bench-versions: libraries
	@$(MAKE) --no-print-directory host-versions

dist: libraries listing
	@$(MAKE) --no-print-directory host-archive

fuzz: libraries
	@tools/need cargo clang libfuzzer
	@$(MAKE) --no-print-directory host-libfuzzer

include host/host.mk
