# The shared library, and what is put below a prefix; the Makefile includes this.
VERSION := $(shell sed -n 's/^#define DXL_VERSION "\(.*\)"$$/\1/p' include/mednukals.h)
$(if $(VERSION),,$(error mednukals: include/mednukals.h has no version))

# Of the proved objects of an archive, and for x86-64 only.
SHARED := build/lib/libmednukals.so.$(VERSION)
SHARED_LIBS := $(SHARED) $(LEAVES:%=build/lib/libmednukals_%.so.$(VERSION))
$(SHARED_LIBS): build/lib/%.so.$(VERSION): build/lib/%.a tools/shared.sh
	@$(call need,$(firstword $(CC)))sh tools/shared.sh $@ $< $(CC) || $(call failed,linking $@)
MADE_SHARED := $(if $(TARGET),,build/lib/libmednukals$(OVER).so.$(VERSION))
lib: $(MADE_SHARED)

# As CAPTURE, these names are their own.
install uninstall: export MEDNUKALS_PREFIX := $(if $(value PREFIX),$(value PREFIX),/usr/local)
install uninstall: export MEDNUKALS_DESTDIR := $(value DESTDIR)
unexport PREFIX DESTDIR
PLACED := tools/install.sh $(VERSION) libmednukals$(OVER) '$(TARGET)'
install: $(firstword $(MADE_LIBS)) $(MADE_SHARED) $(if $(TARGET)$(LEAF),,build/c/dxl) ## put header, libraries, dxl with man page, mednukals.py and a pkg-config file below /usr/local
#- PREFIX=DIR below that folder
#- DESTDIR=DIR staged below that one, for a package
#- LEAF=NAME header, libraries and pkg-config file over the checksum function small or fold
#- TARGET=NAME header, archive and pkg-config file for another processor, with the text that says what of it is proved
	@sh $(PLACED) install
uninstall: ## remove what make install has put there; PREFIX, DESTDIR, LEAF and TARGET as for it
	@sh $(PLACED) uninstall
