# make proves the calls and builds arraymap, with progress; make help lists everything else.
PREFIX ?= /usr/local
PROGRAMS = map map_pairs map_two checker tally from_genlib
VERSION = $(shell sed -n 's/^version = "\(.*\)"/\1/p' cli/Cargo.toml)
# Names may have spaces: each is quoted for the shell where it is used.
TO = $(DESTDIR)$(PREFIX)
ifneq (,$(findstring ',$(CURDIR)$(TO)))
$(error the folder of this tree, PREFIX and DESTDIR may have no ' in their names)
endif

.NOTPARALLEL:
.PHONY: all arraymap demo programs install install-arraymap install-programs uninstall test clean help tools-there rust-there prefix-there

all: arraymap programs

help:
	@echo "make            prove the calls and the programs of the documents, and build arraymap, which takes long the first time"
	@echo "make demo       the calls and arraymap alone, and a first mapping with its review page"
	@echo "make arraymap   the calls and arraymap alone"
	@echo "make install    the same, then everything below PREFIX, $(PREFIX); DESTDIR goes before it"
	@echo "make uninstall  remove what make install puts there"
	@echo "make test       prove and test everything, as the gate does"
	@echo "make clean      remove target and the crates' out, what is proved and built: the next make begins anew"

# What is missing is said before anything is proved.
tools-there:
	@command -v rt > /dev/null || { echo "make: rt is not on the path: the kit's program that proves the calls" >&2; exit 2; }

rust-there:
	@command -v cargo > /dev/null || { echo "make: cargo is not on the path: it builds arraymap" >&2; exit 2; }
	@command -v cc > /dev/null || { echo "make: cc is not on the path: cargo links arraymap with it" >&2; exit 2; }

prefix-there:
	@case '$(PREFIX)' in /*) ;; *) echo "make: PREFIX is to begin with /: $(PREFIX)" >&2; exit 2 ;; esac
	@folder='$(TO)'; while [ ! -e "$$folder" ]; do folder=$$(dirname "$$folder"); done; \
	[ -d "$$folder" ] && [ -w "$$folder" ] || { echo "make: $$folder may not be written: choose another PREFIX, or install as its owner" >&2; exit 2; }

arraymap: tools-there rust-there
	@echo "proving the calls, which takes long the first time"
	tools/prove arraymap
	ARRAYMAP_LIB_DIR='$(CURDIR)/target/staticlib' cargo build --offline --release --manifest-path cli/Cargo.toml --target-dir target/cargo

# A first mapping: the netlist, its figures and where its review page is.
demo: arraymap
	@mkdir -p target/demo
	@target/cargo/release/arraymap -s -o target/demo/marker.blif -r target/demo/marker.html examples/marker/cells.txt examples/marker/graph.aag
	@echo; cat target/demo/marker.blif
	@echo; echo "netlist: target/demo/marker.blif"; echo "review page: target/demo/marker.html"

programs: tools-there
	@echo "proving the programs of the documents"
	tools/prove $(PROGRAMS)

# arraymap first: it is there before the programs are proved.
install: install-arraymap install-programs

install-arraymap: prefix-there arraymap
	install -d '$(TO)/bin' '$(TO)/lib/pkgconfig' '$(TO)/include' '$(TO)/share/man/man1' '$(TO)/share/bash-completion/completions'
	install -m 755 target/cargo/release/arraymap target/cargo/release/arraymap-abc target/cargo/release/cells2genlib '$(TO)/bin'
	install -m 644 target/staticlib/libarraymap.a '$(TO)/lib'
	install -m 644 include/arraymap.h '$(TO)/include'
	PREFIX='$(PREFIX)' VERSION='$(VERSION)' tools/pkg_config include/arraymap.pc.in > target/arraymap.pc
	install -m 644 target/arraymap.pc '$(TO)/lib/pkgconfig'
	install -m 644 docs/arraymap.1 '$(TO)/share/man/man1'
	install -m 644 tools/completion/arraymap '$(TO)/share/bash-completion/completions'
	@echo '$(TO)/bin/arraymap is there'

# In a folder of their own: names such as map and tally are not for everybody's path.
install-programs: prefix-there programs
	install -d '$(TO)/lib/arraymap'
	install -m 755 $(PROGRAMS:%=target/bin/%) '$(TO)/lib/arraymap'

# The files that make install puts there, and no folder: others may use it.
uninstall:
	for name in arraymap arraymap-abc cells2genlib; do rm -f '$(TO)/bin/'"$$name"; done
	for name in $(PROGRAMS); do rm -f '$(TO)/lib/arraymap/'"$$name"; done
	rm -f '$(TO)/lib/libarraymap.a' '$(TO)/lib/pkgconfig/arraymap.pc' '$(TO)/include/arraymap.h' '$(TO)/share/man/man1/arraymap.1' \
	    '$(TO)/share/bash-completion/completions/arraymap'

test:
	tests/run

clean:
	rm -rf target crates/*/out
