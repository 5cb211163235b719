# make run       the listing program on a small tree
# make lib       the static library, target/staticlib/libplates.a
# make install   libplates.a, plates.h and plates.pc under PREFIX (default /usr/local; DESTDIR is put before it);
#                make uninstall takes them away
# make examples  the example programs on tree A, in C and in Rust
# make scale     the library as it is linked, compared with independent code
# make bench     times beside other tools; those that are not installed are left out
# make bench-beside BESIDE=FILE   times beside another build, whose libplates.a is FILE
# make test      the gate: everything
.PHONY: run lib install uninstall examples scale bench bench-beside test

PREFIX ?= /usr/local
LIBRARY := target/staticlib/libplates.a
VERSION := $(shell sed -n 's/^\#define PLATES_VERSION "\(.*\)"/\1/p' include/plates.h)
CARGO := CARGO_TARGET_DIR="$(CURDIR)/target/cargo" PLATES_LIB_DIR="$(CURDIR)/target/staticlib" cargo

run:
	cd crates/listing && rt run < stdin

lib:
	cd crates/plates && rt lib
	install -D -m 644 crates/plates/out/libplates.a $(LIBRARY)

install: lib
	install -d "$(DESTDIR)$(PREFIX)/lib/pkgconfig" "$(DESTDIR)$(PREFIX)/include"
	install -m 644 $(LIBRARY) "$(DESTDIR)$(PREFIX)/lib/libplates.a"
	install -m 644 include/plates.h "$(DESTDIR)$(PREFIX)/include/plates.h"
	sed -e 's|@PREFIX@|$(PREFIX)|' -e 's|@VERSION@|$(VERSION)|' plates.pc.in > "$(DESTDIR)$(PREFIX)/lib/pkgconfig/plates.pc"

uninstall:
	rm -f "$(DESTDIR)$(PREFIX)/lib/libplates.a" "$(DESTDIR)$(PREFIX)/include/plates.h" "$(DESTDIR)$(PREFIX)/lib/pkgconfig/plates.pc"

examples: lib
	mkdir -p target/examples
	$(CC) -std=c11 -O2 -Wall -Wextra -pedantic -Iinclude examples/tree_a.c $(LIBRARY) -o target/examples/tree_a
	target/examples/tree_a
	$(CARGO) run --offline --manifest-path bindings/rust/Cargo.toml --example tree_a
	$(CC) -std=c11 -O2 -Wall -Wextra -pedantic -Iinclude examples/send_back.c $(LIBRARY) -o target/examples/send_back
	target/examples/send_back
	$(CARGO) run --offline --manifest-path bindings/rust/Cargo.toml --example send_back
	$(CC) -std=c11 -O2 -Wall -Wextra -pedantic -Iinclude examples/second_edition.c $(LIBRARY) -o target/examples/second_edition
	target/examples/second_edition
	$(CARGO) run --offline --manifest-path bindings/rust/Cargo.toml --example second_edition
	$(CC) -std=c11 -O2 -Wall -Wextra -pedantic -Iinclude examples/prices_open.c $(LIBRARY) -o target/examples/prices_open
	target/examples/prices_open
	$(CARGO) run --offline --manifest-path bindings/rust/Cargo.toml --example prices_open

scale: lib
	bash tests/run

bench: lib
	$(CARGO) test --release --quiet --offline --manifest-path bench/Cargo.toml
	$(CARGO) run --release --offline --manifest-path bench/Cargo.toml

bench-beside: lib
	$(if $(BESIDE),,$(error BESIDE is missing, the libplates.a of another build))
	$(CC) -shared -o target/other.so -Wl,--whole-archive "$(BESIDE)" -Wl,--no-whole-archive
	$(CC) -shared -o target/this.so -Wl,--whole-archive $(LIBRARY) -Wl,--no-whole-archive
	$(CARGO) run --release --offline --manifest-path bench/Cargo.toml -- --beside target/other.so target/this.so

test:
	bash .ci/run
