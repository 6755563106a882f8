# The library for other processors, TARGET=NAME; the Makefile includes this.
PROCESSORS := thumbv6m thumbv7em rv32imac i686
# The name is a common one: where the environment has it, this is not meant.
$(if $(filter environment,$(origin TARGET)),$(eval TARGET :=))
TARGET_TOOLS := $(addprefix tools/targets/,archive.py layer.py record.py retarget.py PROVED.txt)
TARGET_LIB := build/lib/$(TARGET)/libmednukals$(LEAF:%=_%).a
$(if $(filter-out $(PROCESSORS),$(TARGET)),$(error mednukals: TARGET=$(TARGET): only $(PROCESSORS:%=TARGET=%) are known))
ifneq ($(TARGET),)
MACHINES := thumbv6m-microbit thumbv7em-mps2-an386
MACHINE := $(patsubst $(TARGET)-%,%,$(filter $(TARGET)-%,$(MACHINES)))
$(if $(filter-out lib install uninstall demo memory,$(MAKECMDGOALS)),$(error mednukals: TARGET is for make lib, make install, make uninstall, make demo and make memory))
$(if $(MACHINE),,$(if $(filter demo memory,$(MAKECMDGOALS)),$(error mednukals: make demo and make memory are for TARGET=thumbv6m and TARGET=thumbv7em)))
# The board of examples/uart_board.c without an operating system.
BARE_BOARD := build/bare/$(TARGET)$(LEAF:%=_%).elf
$(BARE_BOARD): $(TARGET_LIB) $(wildcard examples/bare/*) examples/uart_board.c examples/uart_board.h tools/targets/program.py
	@python3 tools/targets/program.py $(TARGET) $< $@ examples/uart_board.c examples/bare/hardware.c
endif

# What the kit's compiler is handed for x86-64: it comes with the archives.
modules = $(EXPORTS:%=build/$(1)/%.bc)

# $(call target_rules,LEAF,LIBRARY)
define target_rules
$(if $(filter-out table,$(1)),$(call modules,$(1)): build/lib/libmednukals_$(1).a ;)
$(PROCESSORS:%=build/lib/%/$(2)): build/lib/%/$(2): $(call modules,$(1)) include/mednukals.h $(TARGET_TOOLS)
	@python3 tools/targets/archive.py $$* $$@ $(call modules,$(1))
endef
$(eval $(call target_rules,table,libmednukals.a))
$(foreach leaf,$(LEAVES),$(eval $(call target_rules,$(leaf),libmednukals_$(leaf).a)))
PROCESSOR_LIBS := $(foreach name,$(PROCESSORS),$(addprefix build/lib/$(name)/,libmednukals.a $(LEAVES:%=libmednukals_%.a)))
