# Builds programs for the machine with a stock cross compiler (Debian: gcc-riscv64-unknown-elf).
#
# One file, without a Makefile:      make -f guest/guest.mk path/program.elf
# Several files, in a Makefile:      include ../guest/guest.mk
#                                    program.elf: program.c parser.c
#
# OPT is the level of optimisation, DEFINES takes -D options, DEBUG=-s leaves symbols out.
KIT := $(dir $(lastword $(MAKEFILE_LIST)))
CROSS ?= riscv64-unknown-elf-
OPT ?= -O1
DEBUG ?= -g
DEFINES ?=

GUEST_FLAGS = -march=rv32i -mabi=ilp32 -std=c11 -ffreestanding -Wall -Wextra \
	-ffunction-sections -fdata-sections -I$(KIT)include -ffile-prefix-map=$(CURDIR)=. $(OPT) $(DEBUG) $(DEFINES)
GUEST_LINK = -static -nostdlib -nostartfiles -T $(KIT)guest.ld \
	-Wl,--gc-sections -Wl,-z,max-page-size=4096 -Wl,--build-id=none
GUEST_FILES = $(KIT)start.c $(KIT)library.c
GUEST_KIT = $(GUEST_FILES) $(KIT)guest.ld $(KIT)guest.mk $(wildcard $(KIT)include/*.h)

guest_build = $(CROSS)gcc $(GUEST_FLAGS) $(GUEST_LINK) \
	$(filter-out $(GUEST_FILES),$(filter %.c %.S,$^)) $(GUEST_FILES) -lgcc -o $@

%.elf: %.c $(GUEST_KIT)
	$(guest_build)
