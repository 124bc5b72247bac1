# Installs the library for C: the archive, the header and a pkg-config file.
#   make install PREFIX=/usr/local [DESTDIR=..]
#   make uninstall PREFIX=/usr/local [DESTDIR=..]
# PREFIX is an absolute path. `make library` proves and writes the archive where it is missing or
# older than the code: `rt lib` makes it of the crate station_c, and it gets its name here.

PREFIX = /usr/local
DESTDIR =

archive = target/staticlib/libstation.a
libdir = $(DESTDIR)$(PREFIX)/lib
includedir = $(DESTDIR)$(PREFIX)/include

all: library

library:
	@if [ ! -f $(archive) ] || [ -n "$$(find crates -name '*.rt' -newer $(archive))" ]; then \
	    (cd crates/station_c && rt lib) && mkdir -p $(dir $(archive)) && \
	        cp crates/station_c/out/libstation_c.a $(archive); \
	fi

absolute:
	@case "$(PREFIX)" in \
	/*) ;; \
	*) echo "install: PREFIX is not an absolute path: $(PREFIX)" >&2; exit 1 ;; \
	esac

install: absolute library
	mkdir -p "$(libdir)/pkgconfig" "$(includedir)"
	cp $(archive) "$(libdir)/libwuthracomb.a"
	cp include/wuthracomb.h "$(includedir)/wuthracomb.h"
	{ echo "prefix=$(PREFIX)"; cat include/wuthracomb.pc; } > "$(libdir)/pkgconfig/wuthracomb.pc"
	chmod 644 "$(libdir)/libwuthracomb.a" "$(libdir)/pkgconfig/wuthracomb.pc" \
	    "$(includedir)/wuthracomb.h"

uninstall: absolute
	rm -f "$(libdir)/libwuthracomb.a" "$(libdir)/pkgconfig/wuthracomb.pc" \
	    "$(includedir)/wuthracomb.h"

.PHONY: all library absolute install uninstall
