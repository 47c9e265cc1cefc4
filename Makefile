# The two commands of the README are `make run` and `make test`.
SHELL = /bin/bash
.SHELLFLAGS = -o pipefail -c

# What is built: by rt the program and the archives, each in its crate's out/, from where they come to target/; by cargo the Rust packages
# (Cargo.toml), in build/.
INTEGRATOR = target/bin/integrator
LIBRARY = target/staticlib/libwihupya.a
FIGURES = target/staticlib/libfigures.a
TOOLS = build/release

# Not told of make's jobs, which it cannot share.
CARGO = MAKEFLAGS= cargo
RELEASE = --release --offline --quiet
C = $(CC) -std=c99 -Wall -Wextra -Werror -O2 -I include

# What rt says, line by line as it comes. Left out are, of what is proved, the items one by one, what they rest on in the toolchain, and what was
# loaded for them. A line of any other form is shown, and so is each error; all of it is in build/log/.
SHOWN = | tee build/log/$@ | LC_ALL=C sed -u -E \
	-e '/^[a-z]+ [^ ]+: proved(, may (abort|wait))?$$/d' \
	-e '/^empty contracts: 0 found; tried ([0-9]+) of \1 functions$$/d' \
	-e '/^logic [^ ]+: libraries=[0-9]+ files=[0-9]+ sum=[0-9a-f]+$$/d' \
	-e '/^(statements|library) [^ ]+: modules loaded=[0-9]+ checked=[0-9]+$$/d' \
	-e '/^axioms (core|io|libc|os|std[a-z_]*): .* of the [0-9]+ declared\)?$$/d' \
	-e '/^linked target=[^ ]+ loader=[^ ]+ files=[^ ]+$$/d' \
	-e 's|$(CURDIR)/||g'

# Where an archive is as it was it stays, so that cargo does not link anew. $(call taken,CRATE,ARCHIVE)
taken = cmp -s crates/$(1)/out/lib$(1).a $(2) || install -D -m 644 crates/$(1)/out/lib$(1).a $(2)

# What `make compare` and `make soak` run over; both can be set on the command line.
SEED = 1

.PHONY: run program tools test proofs exported figures built tests rust-test reference-runs figures-compared check-compared calls-compared records-compared callers programs-compared compare soak bench stack vectors clean
# But for `tests` one after the other: two calls of rt at a time would write to the same folder.
ifneq ($(MAKECMDGOALS),tests)
.NOTPARALLEL:
endif

# The main job on an example, with its report.
run: program
	@$(INTEGRATOR) < examples/four-axis-pump.job

# The proved program. Only what is proved is built, which takes some minutes the first time. rt runs it too, here on the example of `make run`.
program:
	@mkdir -p build/log
	@(cd crates/integrator && rt run) < examples/four-axis-pump.job 2>&1 > /dev/null $(SHOWN)
	@install -D crates/integrator/out/integrator $(INTEGRATOR)

# The reference's programs: jobtext makes job files, compare holds a program to the reference.
tools:
	@$(CARGO) build $(RELEASE) -p reference

# Every test. The proofs come first, since the other tests run what they build; those run two at a time, since most of them keep one processor
# busy. The verdict of the proofs, which `rt ci` says last, is said again at the end.
test: proofs
	@$(MAKE) --no-print-directory --jobs=2 --output-sync=target PARTS='exported figures tools' tests
	@grep -oE '^[0-9]+ passed, [0-9]+ failed' build/verdict | tail -n 1

# Those without cargo come next to the first, which has it compile.
tests: rust-test programs-compared reference-runs check-compared records-compared figures-compared calls-compared callers

# The gate of the proofs, over the checkout as it is. A must-fail edit that cannot be applied or read fails it here: rt counts it on its line
# `rt: ok`, after those that were refused, and passes. It leaves the program that it built and ran, and no archive.
proofs:
	@mkdir -p build/log
	@rt ci 2>&1 $(SHOWN) | tee build/verdict
	@grep -q '^rt: ok' build/verdict || { echo 'proofs: rt ci printed no line that begins rt: ok' >&2; exit 1; }
	@if grep -E '^rt: ok.*, [1-9][0-9]* bad\b' build/verdict >&2; then echo 'proofs: mend the bad must-fail edits' >&2; exit 1; fi
	@install -D crates/integrator/out/integrator $(INTEGRATOR)

# What the tests run. After `proofs` the program is there.
PARTS = exported figures program tools
built:
	@for part in $(PARTS); do $(MAKE) --no-print-directory $$part || exit 1; done

# The exported calls as the static library that callers link.
exported:
	@mkdir -p build/log
	@(cd crates/wihupya_c && rt lib) 2>&1 $(SHOWN)
	@$(call taken,wihupya_c,$(LIBRARY))

# The proved figures of areas as the static library that the comparison links.
figures:
	@mkdir -p build/log
	@(cd crates/figures && rt lib) 2>&1 $(SHOWN)
	@$(call taken,figures,$(FIGURES))

# The tests of all Rust packages: the reference's own; named cases on the exported calls, their boundary cases and causes; the bindings for
# Rust and the header's numbers; the integrator in idiomatic Rust against the reference. About a minute.
rust-test: built
	@$(CARGO) test $(RELEASE) --workspace

# Short runs of the call driver and of the job files, with fixed seeds.
reference-runs: built
	$(TOOLS)/drive 1 20000
	$(TOOLS)/survey 1 1000

# The proved figures of areas against the reference's.
figures-compared: built
	@$(CARGO) run $(RELEASE) -p comparison

# The exported check and doubles against the reference's, on altered areas, short storage and garbage; some forty seconds.
check-compared: built
	@$(CARGO) run $(RELEASE) -p harness --bin compare_check -- 1 50000

# Lists of exported calls against the reference's, everything lent compared after every call; some seconds.
calls-compared: built
	@$(CARGO) run $(RELEASE) -p harness --bin compare_calls -- 1 20000

# Lists of calls over lent record structs against the reference's, by an unproved program outside the repository (tests/records); some seconds.
records-compared: built
	@$(CARGO) build $(RELEASE) -p harness
	@tests/records/run 1

# The callers' side: the header in C, and as C++ where there is a compiler for it; then a job run by calls in C and in Rust, whose report
# is that of the same job as a file, and whose doubles are those of examples/.
callers: built
	@mkdir -p build
	@$(C) -pedantic -o build/header bindings/wihupya/tests/header.c $(LIBRARY)
	@build/header
	@if command -v $(CXX) > /dev/null; then $(CXX) -std=c++11 -Wall -Wextra -Werror -I include -fsyntax-only -x c++ bindings/wihupya/tests/header.c; fi
	@$(C) -o build/pump examples/pump-in-c/pump.c $(LIBRARY)
	@build/pump | diff examples/four-axis-pump.report -
	@build/pump --doubles | diff examples/four-axis-pump.doubles -
	@$(CARGO) run $(RELEASE) -p pump-in-rust | diff examples/four-axis-pump.report -
	@$(CARGO) run $(RELEASE) -p pump-in-rust -- --doubles | diff examples/four-axis-pump.doubles -
	@echo "callers: the pump in C and the pump in Rust print the report of examples/four-axis-pump.job, and its doubles"

# The proved program against the reference's on generated job files, every byte that they print; about half a minute.
programs-compared: built
	@$(TOOLS)/compare $(INTEGRATOR) 1 2000

# The same on fresh files: make compare SEED=7 COUNT=20000
compare: COUNT = 2000
compare: program tools
	@$(TOOLS)/compare $(INTEGRATOR) $(SEED) $(COUNT)

# The exported calls for as long as one likes: make soak SEED=7 COUNT=5000000
soak: COUNT = 1000000
soak: exported
	@$(CARGO) run $(RELEASE) -p harness --bin compare_check -- $(SEED) $(COUNT)
	@$(CARGO) run $(RELEASE) -p harness --bin compare_calls -- $(SEED) $(COUNT)

# The proved library and program beside the same integrator in idiomatic Rust: ratios of times, then counts of instructions. No test.
bench: exported program
	@$(CARGO) test $(RELEASE) -p bench
	@$(CARGO) build $(RELEASE) -p bench
	@$(TOOLS)/measure $(INTEGRATOR)
	@$(TOOLS)/measure instructions $(INTEGRATOR)

# How deep the stack of each exported call goes, for the header and docs/CLAIMS.md. No test.
stack: exported
	@$(CARGO) run $(RELEASE) -p harness --bin stack

# Writes the named and generated job files of the crate `vectors` anew, and what they must print.
vectors: tools
	@$(TOOLS)/vectors crates/vectors

clean:
	rm -rf target build crates/*/out
