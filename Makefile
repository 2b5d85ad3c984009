# Lohitunga as one library for C, for x86-64 Linux.
#
#     make                          target/lib: liblohitunga.a, the shared library and the pkg-config file; target/programs
#     make install PREFIX=/usr      library, headers, pkg-config file, programs, documents; DESTDIR is put before PREFIX
#     make dist                     target/lohitunga-VERSION-x86_64-linux.tar.gz, with the built library: no prover needed
#     make clean                    what `make` and `make dist` have made
#
# The library is made of the kit's archives, one for each crate that is named here; each is proved before it is
# compiled.
CRATES = cabinet desk
PREFIX = /usr/local
DESTDIR =

defined = $(shell sed -n 's/^\#define LOHITUNGA_$(1) "*\([^"]*\)"*$$/\1/p' include/lohitunga.h)
version := $(call defined,VERSION)
interface := $(call defined,INTERFACE)
cc := $(shell . tools/x86-64 && echo $$cc)
ar := $(shell . tools/x86-64 && echo $$ar)
archives := $(CRATES:%=target/staticlib/lib%.a)
out := target/lib
shared := liblohitunga.so.$(interface)
to := $(DESTDIR)$(PREFIX)
dist := lohitunga-$(version)-x86_64-linux

# programs over the library: lohitunga-NAME is tools/NAME.c
programs := target/programs/lohitunga-account

all: $(out)/liblohitunga.a $(out)/$(shared) $(out)/lohitunga.pc $(programs)

# made anew where the code is newer than the archive, as tools/x86-64 says
target/staticlib/lib%.a: FORCE
	@. tools/x86-64 && archive $* && compiler

$(out)/liblohitunga.a: $(archives)
	rm -rf $@ $(out)/objects
	mkdir -p $(out)/objects
	cd $(out)/objects && for archive in $(abspath $(archives)); do $(ar) x $$archive; done
	$(ar) rcsD $@ $(out)/objects/*.o

# the objects are position independent
$(out)/$(shared): $(archives)
	mkdir -p $(out)
	$(cc) -shared -Wl,-soname,$(shared) -Wl,-z,defs -Wl,--whole-archive $(archives) -Wl,--no-whole-archive -o $@

# the places are counted from the file's own, so that the installed folders may be moved
$(out)/lohitunga.pc: include/lohitunga.h Makefile
	mkdir -p $(out)
	printf '%s\n' 'prefix=$${pcfiledir}/../..' 'includedir=$${prefix}/include' 'libdir=$${prefix}/lib' '' 'Name: lohitunga' \
		'Description: Service information of digital television (EN 300 468), verified' 'Version: $(version)' \
		'Cflags: -I$${includedir}' 'Libs: -L$${libdir} -llohitunga' >$@

target/programs/lohitunga-%: tools/%.c $(archives) include/lohitunga.h include/lohitunga_text.h
	mkdir -p target/programs
	examples/build $< $@

install: all
	mkdir -p $(to)/bin $(to)/include $(to)/lib/pkgconfig $(to)/share/doc/lohitunga/docs/maintainers $(to)/share/doc/lohitunga/examples
	install -m 755 $(programs) $(to)/bin
	install -m 644 include/lohitunga.h include/lohitunga_text.h $(to)/include
	install -m 644 $(out)/liblohitunga.a $(to)/lib
	install -m 755 $(out)/$(shared) $(to)/lib
	ln -sf $(shared) $(to)/lib/liblohitunga.so
	install -m 644 $(out)/lohitunga.pc $(to)/lib/pkgconfig
	install -m 644 README.md LICENSE CHANGELOG.md $(to)/share/doc/lohitunga
	install -m 644 docs/*.md $(to)/share/doc/lohitunga/docs
	install -m 644 docs/maintainers/*.md $(to)/share/doc/lohitunga/docs/maintainers
	install -m 644 examples/services.c examples/packets.c $(to)/share/doc/lohitunga/examples

dist: all
	rm -rf target/dist
	$(MAKE) install DESTDIR= PREFIX=$(abspath target/dist/$(dist))
	cp docs/INSTALL.md target/dist/$(dist)/README.md
	cd target/dist && tar --sort=name --owner=0 --group=0 --numeric-owner -czf ../$(dist).tar.gz $(dist)
	rm -rf target/dist

clean:
	rm -rf $(out) target/programs target/dist target/$(dist).tar.gz

FORCE:
.PHONY: all install dist clean FORCE
