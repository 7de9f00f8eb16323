# For a Makefile of a program whose sources are in SOURCES and whose flags for avr-gcc are in CFLAGS and LDFLAGS:
#
#   include PATH/avr/ccomp-avr.mk
#
# `make small` builds $(SMALL)/new.elf, and prints the sizes before and after. CCOMP_AVR_FLAGS are further options of
# ccomp-avr, as --check.
CCOMP_AVR ?= $(dir $(lastword $(MAKEFILE_LIST)))ccomp-avr
SMALL ?= ccomp-out

.PHONY: small
small: $(SMALL)/new.elf

$(SMALL)/new.elf: $(SOURCES) $(wildcard *.h)
	$(CCOMP_AVR) -o $(SMALL) $(CCOMP_AVR_FLAGS) -- $(CC) $(CFLAGS) $(LDFLAGS) $(SOURCES) $(OBJECTS)
