# The proved library for programs in C and Python: a shared one beside the static one, and
# where they are installed. `make` builds, `make install` copies (PREFIX, DESTDIR), and
# `make uninstall` removes. What answers people is ./register, which needs none of this.

PREFIX = /usr/local
DESTDIR =
PYTHONDIR = $(PREFIX)/lib/python3/dist-packages

VERSION := $(shell sed -n 's/^version = "\(.*\)"$$/\1/p' host/Cargo.toml)
ABI = 1
STATIC = target/staticlib/libregister.a
SHARED = target/shared/libregister.so
PLACE = $(DESTDIR)$(PREFIX)

all: $(SHARED)

$(STATIC):
	./library register

$(SHARED): $(STATIC)
	mkdir -p $(@D)
	$(CC) -shared -Wl,-soname,libregister.so.$(ABI) -o $@.$$$$.part \
		-Wl,--whole-archive $(STATIC) -Wl,--no-whole-archive && mv $@.$$$$.part $@

install: all
	install -d $(PLACE)/include $(PLACE)/lib/pkgconfig $(DESTDIR)$(PYTHONDIR)
	install -m 644 include/register.h include/register_reader.h $(PLACE)/include
	install -m 644 $(STATIC) $(PLACE)/lib
	install -m 755 $(SHARED) $(PLACE)/lib/libregister.so.$(VERSION)
	ln -sf libregister.so.$(VERSION) $(PLACE)/lib/libregister.so.$(ABI)
	ln -sf libregister.so.$(ABI) $(PLACE)/lib/libregister.so
	sed 's|@PREFIX@|$(PREFIX)|; s|@VERSION@|$(VERSION)|' include/faceting-register.pc.in \
		>$(PLACE)/lib/pkgconfig/faceting-register.pc
	install -m 644 python/faceting_register.py $(DESTDIR)$(PYTHONDIR)

uninstall:
	rm -f $(PLACE)/include/register.h $(PLACE)/include/register_reader.h \
		$(PLACE)/lib/libregister.a $(PLACE)/lib/libregister.so* \
		$(PLACE)/lib/pkgconfig/faceting-register.pc $(DESTDIR)$(PYTHONDIR)/faceting_register.py

.PHONY: all install uninstall
