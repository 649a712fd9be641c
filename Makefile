.PHONY: help run build install dist deb test check edits e2e fmt bench

PREFIX ?= /usr/local

# what is built and installed: beat_main, beat_check, beat_status, beat_sink, beat_container or beat_spool
PROGRAM ?= beat_main

# prints this list
help:
	@awk '/^$$/ { said = "" } /^# / { said = substr($$0, 3) } \
	/^[a-z0-9]+:/ { printf "make %-8s %s\n", substr($$1, 1, length($$1) - 1), said }' $(MAKEFILE_LIST)

# ships the logs of examples/ with examples/beat.toml to a receiver on loopback, and shows what came in, in two minutes
run:
	python3 -B examples/demo.py

# proves and builds one program, in minutes to hours, and says beforehand how long it takes: make build PROGRAM=beat_sink
build:
	python3 -B package/build.py $(PROGRAM)

# puts the built program into PREFIX/bin
install:
	install -D -m 755 crates/$(PROGRAM)/out/$(PROGRAM) $(DESTDIR)$(PREFIX)/bin/$(PROGRAM)

# packs the proved programs into dist/moqhuluzi-VERSION-x86_64.tar.gz, in seconds
dist:
	python3 -B package/dist.py

# makes the Debian package of them, dist/moqhuluzi_VERSION_amd64.deb, in seconds
deb:
	python3 -B package/deb.py

# the merge check, in 40 minutes on four processors: all proofs, tests and must-fail edits, and the programs and the package from outside
test:
	.ci/run

# checks one crate while it is written: make check CRATE=line_cutter
check:
	cd crates/$(CRATE) && rt check

# tries wrong bodies, which the prover has to refuse: of one crate, make edits CRATE=line_cutter, or all, before a release
edits:
	python3 -B tests/edits.py $(CRATE)

# tests the built programs over real files and sockets: make e2e TEST=two_inputs, or all
e2e:
	python3 -B tests/end_to_end/run.py $(TEST)

# formats every crate
fmt:
	for crate in crates/*/; do (cd $$crate && rt fmt) || exit 1; done

# times the programs and single calls into bench/RESULTS.md: make bench PART=commits, or all; needs rustc
bench:
	python3 -B bench/run.py $(PART)
