# Rules for a program on the board. A makefile sets these and includes this file; that of
# examples/first is one:
#
#     PROGRAM    its source without .s
#     SKETCH     sketches of its frames and shapes, if it has some; they become one, build/sketch.
#                `dvg help lay` has their form, and outline.awk adds outlines to it. Each frame
#                becomes a table of its name, in build/tables.inc. build/shapes.equates has the
#                names of the ROM.
#     MACHINE    the arcade emulator's name of the board: asteroid, or astdelux for Asteroids Deluxe
#     DEFINES    options of ca65 for the program, DRIVER those for the driver
#     DVG        the program dvg, if it isn't the one of this repository
#
# `make help` prints the lines below.
#
#: make           makes the ROM set, build/roms, and says how many bytes are taken
#: make proof     asks dvg game of its bytes: no run of them tears a picture; or it says what isn't
#:                seen, or which line of the source is refused, and why
#: make premises  looks whether the program keeps to the premises of the driver's proof
#: make judge     the same, and runs it in the emulator without a screen, and says all that is bad:
#:                a second of the game takes about a second of a processor
#: make film      the same, and makes a moving picture of it, build/film.svg
#: make sound     runs it without a screen, writes what it sounds like into build/sound/sound.wav,
#:                and says of each second whether anything was heard
#: make emulator  runs it without a screen, and compares what it does with the proved driver, and
#:                what it shows with its frames
#: make torn      runs it without a screen, and has it judged by dvg torn
#: make play      runs it with a screen; without MAME it is make page
#: make record    runs it with a screen, and records what you press there in BUTTONS
#: make page      writes build/page.html, which plays only this game: for a browser, a friend, any
#:                host
#: make watch     draws frames and shapes again whenever a file of the sketches changes, and makes
#:                the page again, if it is there: open build/watch.html in a browser
#: make eproms    writes what is to be burned, in build/eproms; make test-rom does so for a test ROM
#: make clean     removes build
#:
#: JUDGED   how many seconds of the board's time premises, judge, film and sound run [20]: so many
#:          that the file of buttons is played to its end, as by JUDGED ?= 42 in the makefile
#: SECONDS  the same of emulator and torn [5]; SHOTS: when pictures are taken [1.5 2.5 3.5 4.5]
#: RATE     what judge wants [30]: so many pictures a second at least, redraws among them; a third
#:          more new ones at most; and that a picture takes no longer than 1/RATE of a second
#: STILL    for how many seconds, up to the end, judge takes only redraws [5]
#: FILM     the seconds of the film, the first and the last one [3 12]
#: WATCH    labels whose bytes judge prints at the end, as: lives score:4. The program's own come
#:          before the driver's
#: BUTTONS  the file of presses that all but play and torn play [buttons.txt, if it is there]
#: TITLE    what the page calls the game [the name of the folder]
#: DVG      the program dvg [./dvg of this repository]
#: WATCHED  how many rounds watch goes on: in each it looks at the files, draws, and rests a second

# Relative where the makefile includes this file so: make takes no path with a blank in it.
BOARD := $(dir $(lastword $(MAKEFILE_LIST)))
DVG ?= $(BOARD)../dvg
MACHINE ?= asteroid
export DVG
export DVG_MACHINE = $(MACHINE)
CONFIG := $(BOARD)$(if $(filter astdelux,$(MACHINE)),deluxe.cfg,board.cfg)
SECONDS ?= 5
SHOTS ?= 1.5 2.5 3.5 4.5
JUDGED ?= 20
RATE ?= 30
STILL ?= 5
FILM ?= 3 12
BUTTONS ?= buttons.txt
TITLE ?= $(notdir $(CURDIR))
MAME ?= $(shell command -v mame || ls /usr/games/mame 2>/dev/null)
$(shell mkdir -p build)
.DEFAULT_GOAL := roms

# What was asked for the last time; where it differs, all is made anew.
OPTIONS := $(MACHINE) $(PROGRAM) $(SKETCH) $(DEFINES) / $(DRIVER)
$(shell echo '$(OPTIONS)' | cmp -s - build/options || echo '$(OPTIONS)' >build/options)

roms: build/roms/$(MACHINE)
	@python3 $(BOARD)room.py build/$(PROGRAM).map build/rom

build/roms/$(MACHINE): build/$(PROGRAM).program build/rom build/prom
	@$(BOARD)emulator/roms build/$(PROGRAM).program build/rom build/prom $@
	@touch $@
	@echo made $@

# What ld65 says has a line of what to do below it.
build/$(PROGRAM).program: build/$(PROGRAM).o build/driver.o $(CONFIG) build/options \
    $(BOARD)linked.awk
	@ld65 -C $(CONFIG) -Ln build/$(PROGRAM).labels --dbgfile build/$(PROGRAM).dbg \
	    -m build/$(PROGRAM).map -o $@ \
	    build/driver.o build/$(PROGRAM).o 2>build/linked || status=1; \
	    awk -f $(BOARD)linked.awk build/linked >&2; exit $$status

# Says where the assembler comes from, if it isn't there.
find_ca65 = @command -v ca65 >/dev/null || { \
    echo 'make: ca65 is not found; board/install installs it' >&2 && exit 1; }

build/$(PROGRAM).o: $(PROGRAM).s $(wildcard *.inc $(BOARD)*.inc $(BOARD)parts/*.inc) \
    build/tables.inc build/shapes.equates build/options
	$(find_ca65)
	ca65 -g -I $(BOARD) -I build $(DEFINES) -o $@ $(PROGRAM).s

build/driver.o: $(BOARD)driver.s $(BOARD)dvg.inc build/options
	$(find_ca65)
	ca65 -g $(DRIVER) -o $@ $(BOARD)driver.s

# The driver alone, at the place where it is proved.
build/driver.proved: build/driver.o $(BOARD)driver.cfg
	@ld65 -C $(BOARD)driver.cfg -o $@ build/driver.o

# What looks whether a program keeps to the premises of the proof, where a C compiler is here.
build/premises: $(wildcard $(BOARD)../tests/parts/board/*.[ch])
	@! command -v $(CC) >/dev/null || $(CC) -O2 -o $@ $(BOARD)../tests/parts/board/premises.c

build/sketch: $(SKETCH) $(BOARD)outline.awk $(BOARD)warn.awk build/options
	@: >build/sketch.from
	$(if $(SKETCH),awk -v from=build/sketch.from -f $(BOARD)outline.awk $(SKETCH),echo .rom) >$@
	@awk -f $(BOARD)warn.awk $@

# `dvg lay` with an option, of a sketch, into a file. What it says names the author's own files and
# lines.
lay = @"$(DVG)" lay $(1) <$(2) >$(3) 2>$(3).said || status=1; \
    awk -v sketch=$(2) -f $(BOARD)where.awk build/sketch.from $(3).said >&2; \
    exit $$status

build/tables.inc: build/sketch $(BOARD)tables.awk $(BOARD)where.awk
	$(call lay,--table,build/sketch,build/tables)
	@awk -f $(BOARD)names.awk build/tables
	@awk -f $(BOARD)tables.awk build/tables >$@

# A program may call each name of the ROM, so each is checked in a frame that calls it.
build/shapes.equates: build/sketch
	$(call lay,--equates,build/sketch,$@)
	@awk -f $(BOARD)names.awk $@
	@awk '{ print ".frame\nlabs 0 0 0\ncallrom " $$1 "\nhalt" }' $@ | cat build/sketch - >build/calls
	$(call lay,,build/calls,build/called)

build/rom: build/sketch
	$(call lay,--rom,build/sketch,$@)

# As `dvg check` and `dvg play` read it.
build/rom.lines: build/rom
	"$(DVG)" rom <build/rom >$@

# The stamp tells build/watch.html that there is a new one. Where no frame is in the sketches, the
# picture is that of the shapes.
build/picture.svg: build/sketch build/rom build/shapes.equates $(BOARD)shapes.py
	@"$(DVG)" render <build/sketch >build/drawn.svg
	@python3 $(BOARD)shapes.py build/rom build/shapes.equates >build/shapes.svg
	@grep -q '^\.frame' build/sketch || mv build/shapes.svg build/drawn.svg
	@mv build/drawn.svg $@
	@echo "show($$(date +%s))" >build/stamp.js
	@echo "drawn at $$(date +%T)"

WATCHED ?= 1000000
watch:
	@$(BOARD)watch $(WATCHED) $(MAKE) -s --no-print-directory -f $(firstword $(MAKEFILE_LIST))

build/prom: $(BOARD)emulator/prom.py
	python3 $(BOARD)emulator/prom.py $@

# The file of buttons: buttons.txt, if it is there, or another one, which must be there.
played = $(if $(wildcard $(BUTTONS)),$(if $(filter /%,$(BUTTONS)),,$(CURDIR)/)$(BUTTONS),$(if \
    $(filter buttons.txt,$(BUTTONS)),,$(error there is no file $(BUTTONS), which BUTTONS names)))

# Ends where a line of that file isn't good, before anything runs.
good_buttons:
	@[ -z "$(played)" ] || FILE="$(played)" awk -f $(BOARD)emulator/buttons.awk <"$(played)"

emulator: good_buttons build/roms/$(MACHINE) build/rom.lines
	@DVG_SHOTS="$(SHOTS)" DVG_BUTTONS="$(played)" \
	    $(BOARD)emulator/run build/roms build/emulator $(SECONDS) $(BOARD)emulator/trace.lua
	@$(BOARD)emulator/compare build/emulator/bus.log build/rom.lines build/emulator/bus
	@$(BOARD)emulator/shots build/emulator build/rom.lines

torn: build/roms/$(MACHINE)
	@$(BOARD)emulator/run build/roms build/torn $(SECONDS) $(BOARD)emulator/torn.lua
	@"$(DVG)" torn <build/torn/torn.log

labels = build/$(PROGRAM).labels
premises = $(BOARD)emulator/premises build/driver.proved build/$(PROGRAM).program $(labels) \
    build/shapes.equates $(JUDGED) "$(played)" build/$(PROGRAM).map build/rom

premises: good_buttons build/roms/$(MACHINE) build/premises build/driver.proved
	@$(premises) >build/said; status=$$?; $(BOARD)named build/$(PROGRAM).dbg <build/said; \
	    exit $$status

proof: build/$(PROGRAM).program build/rom
	@$(BOARD)prove $(PROGRAM)

# Ends where a name of WATCH is no label.
find_watched = for name in $(WATCH); do \
    grep -q -x -E "al [0-9A-F]{6} [.]$$(echo "$$name" | sed -E 's/:[0-9]+$$//')" $(labels) || { \
    echo "make: there is no label $$name, which WATCH names" >&2; exit 1; }; done

# What judge.py prints of it is one line.
judge: good_buttons build/roms/$(MACHINE) build/premises build/driver.proved
	@$(find_watched)
	@mkdir -p build/judge
	@$(premises) >build/judge/premises || true
	@DVG_BUTTONS="$(played)" DVG_LABELS="$(CURDIR)/$(labels)" DVG_WATCH="$(WATCH)" \
	    $(BOARD)emulator/run build/roms build/judge $(JUDGED) $(BOARD)emulator/judge.lua || { \
	    echo 'BAD: the emulator failed: build/judge/said' && exit 1; }
	@DVG_LABELS="$(labels)" DVG_EQUATES=build/shapes.equates DVG_TABLES=build/tables \
	    python3 $(BOARD)emulator/judge.py build/judge build/rom $(RATE) $(STILL)

sound: good_buttons build/roms/$(MACHINE)
	@DVG_BUTTONS="$(played)" DVG_WAV=sound.wav \
	    $(BOARD)emulator/run build/roms build/sound $(JUDGED) $(BOARD)emulator/press.lua
	@python3 $(BOARD)emulator/sound.py build/sound/sound.wav

film: judge
	python3 $(BOARD)emulator/film.py build/judge build/rom $(FILM) >build/film.new
	@mv build/film.new build/film.svg

help:
	@sed -n 's/^#: \{0,1\}//p' $(BOARD)board.mk

find_screen = @[ "$$(uname)" != Linux ] || [ -n "$$DISPLAY$$WAYLAND_DISPLAY" ] || { \
    echo '$@: no screen is here; make emulator takes pictures, make judge plays' >&2 && exit 1; }
mame = $(or $(MAME),mame) $(MACHINE) -rompath roms -skip_gameinfo

play: $(if $(MAME),build/roms/$(MACHINE),page)
ifneq ($(MAME),)
	$(find_screen)
	cd build && $(mame)
endif

# `page` always writes it, as TITLE may be another one; the stamp tells build/watch.html of it.
make_page = @$(BOARD)../page/game build/$(PROGRAM).program build/rom \
    '$(subst ','\'',$(TITLE))' build/page.html && echo "play($$(date +%s))" >build/played.js

page: build/$(PROGRAM).program build/rom
	$(make_page)

build/page.html: build/$(PROGRAM).program build/rom
	$(make_page)

record: build/roms/$(MACHINE)
	$(find_screen)
	cd build && DVG_BUTTONS="$(CURDIR)/$(BUTTONS)" $(mame) -autoboot_delay 0 \
	    -autoboot_script "$(CURDIR)/$(BOARD)emulator/record.lua"

eproms: build/roms/$(MACHINE)
	@$(BOARD)eproms build/roms/$(MACHINE) build/eproms

test-rom:
	@dvg=$$(realpath "$(DVG)") && cd $(BOARD)../examples/test_rom && \
	    $(MAKE) --no-print-directory -f makefile DVG="$$dvg" PROGRAM=test MACHINE=$(MACHINE) eproms

clean:
	rm -rf build

.SECONDARY:
.DELETE_ON_ERROR:
.PHONY: help emulator torn premises proof judge sound film
.PHONY: help play record page watch eproms test-rom clean
.PHONY: roms good_buttons
