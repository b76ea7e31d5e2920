# run: the contexts of the sample file W. test: the whole gate. lib: the C library. check: the library and the programs that call it, from
# C and from Rust. bench: its times beside those of readers in plain C and in Rust; ROWS=word for the rows with that word in their names.
# install: header, library and pkg-config file under PREFIX. cases: writes the test files and their expected output anew.
.PHONY: run test lib check bench prefix install cases
PREFIX ?= /usr/local
VERSION = $(shell sed -n 's/^.define HPCDB_LIBRARY_VERSION "\(.*\)"/\1/p' include/hpcdb.h)
LIB = target/staticlib/libhpcdb.a
C = gcc -std=c99 -O2 -Wall -Wextra -Wpedantic -Werror -Iinclude
CARGO = CARGO_TARGET_DIR=$(CURDIR)/target/cargo cargo
DIFFERENTIAL = tests/differential/Cargo.toml
# The Rust reader's loops are aligned as the library's are, where they run best.
BENCH = RUSTFLAGS=-Cllvm-args=-x86-experimental-pref-innermost-loop-alignment=6 CARGO_TARGET_DIR=$(CURDIR)/target/cargo-bench \
	cargo run --quiet --release --manifest-path tests/bench/Cargo.toml --

# What a rule needs, said before anything starts; and a proof with its progress, a line for each crate, and with what failed in it.
NEEDS = @for t in $(1); do command -v $$t >/dev/null || { echo "$$t is not here, and this needs: $(1)"; exit 1; }; done
PROVE = @mkdir -p target; : > target/make.log; $(1) > target/make.log 2>&1 & p=$$!; tail -f -n +1 --pid=$$p target/make.log | grep --line-buffered '^rt: ' >&2; \
	wait $$p || { grep -m 20 'error\|not proved' target/make.log >&2; echo "the whole output is in target/make.log" >&2; exit 1; }

run:
	$(call NEEDS,rt)
	@mkdir -p target
	@cd crates/listing && { rt run < stdin 2> ../../target/make.log || { tail -n 20 ../../target/make.log >&2; exit 1; }; }

test:
	$(call NEEDS,rt gcc g++ cargo)
	bash .ci/run

lib:
	$(call NEEDS,rt)
	$(call PROVE,(cd crates/hpcdb && rt lib))
	@mkdir -p $(dir $(LIB))
	@cp crates/hpcdb/out/libhpcdb.a $(LIB)

check: lib
	$(call NEEDS,gcc g++ cargo)
	@$(C) -o target/lookup tests/lookup.c $(LIB)
	@$(C) -o target/api tests/api.c $(LIB)
	@$(C) -o target/write tests/write.c $(LIB)
	@$(C) -o target/dcpi tests/dcpi.c $(LIB)
	@g++ -x c++ -std=c++11 -Wall -Wextra -Wpedantic -Werror -fsyntax-only include/hpcdb.h
	@mkdir -p target/readme
	@sed -n '/^    #include <stdio.h>/,/^Nothing has/{s/^    //p;/^Nothing has/q}' README.md > target/readme/read.c
	@$(C) -o target/readme/read target/readme/read.c $(LIB)
	@sed -n '/^### List/,/^### Find/s/^    //p' README.md > target/readme/list.c
	@$(C) -o target/readme/list target/readme/list.c $(LIB)
	@sed -n '/^### Find/,/^### Write/s/^    //p' README.md > target/readme/hot.c
	@$(C) -o target/readme/hot target/readme/hot.c $(LIB)
	@sed -n '/^### Write/,/^### Send/s/^    //p' README.md > target/readme/write.c
	@$(C) -o target/readme/write target/readme/write.c $(LIB)
	@sed -n '/^### Send/,/^## Check/s/^    //p' README.md > target/readme/send.c
	@$(C) -o target/readme/send target/readme/send.c $(LIB)
	@cp crates/block_cases/data/p-b.db target/readme/profile.db
	@cp crates/listing/stdin target/readme/meta.db
	@cp crates/hot_cases/data/p-down.db target/readme/values.db
	@target/lookup
	@target/api
	@target/write
	@target/dcpi
	@cd target/readme && { ./read && ./list && ./hot meta.db values.db && ./write && ./send; } | diff - ../../tests/readme.out
	@$(CARGO) test --quiet --release --manifest-path $(DIFFERENTIAL)
	@$(CARGO) run --quiet --release --manifest-path $(DIFFERENTIAL) --bin differential
	@$(BENCH) --compare

bench: lib
	$(call NEEDS,gcc cargo)
	@$(BENCH) "$(ROWS)"

prefix:
	@case "$(PREFIX)" in /*) ;; *) echo "PREFIX is where the library will be looked for: it must begin with /"; exit 1;; esac

install: prefix lib
	install -d $(DESTDIR)$(PREFIX)/include $(DESTDIR)$(PREFIX)/lib/pkgconfig
	install -m 644 include/hpcdb.h $(DESTDIR)$(PREFIX)/include
	install -m 644 $(LIB) $(DESTDIR)$(PREFIX)/lib
	sed 's|@PREFIX@|$(PREFIX)|; s|@VERSION@|$(VERSION)|' hpcdb.pc.in > $(DESTDIR)$(PREFIX)/lib/pkgconfig/hpcdb.pc

cases:
	python3 tools/open_cases.py
	python3 tools/meta_cases.py
	python3 tools/walk_cases.py
	python3 tools/mark_cases.py
	python3 tools/block_cases.py
	python3 tools/record_cases.py
	python3 tools/write_cases.py
	python3 tools/dcpi_cases.py
	python3 tools/hot_cases.py
