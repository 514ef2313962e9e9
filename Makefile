# make view      draws an example as a page, target/show.html (TRACE=examples/NAME.trace: another one)
# make play      proves the players, then plays the example, one line a slot (ENGINE=oq: on the output-queued switch)
# make test      the gate, as .ci/run has it
# make bench     the speed of the proved code beside plain code, each figure a line
# make plot      draws docs/speed.svg from what the last make bench printed
# make install   crossbar-player and oq-player with their manual pages, the static libraries, their headers, and crossbar.pc
#                and oq.pc for pkg-config, under PREFIX (/usr/local), staged in DESTDIR
# make format    the layout of every .rt and .antt file
# make clean     removes what was built
TRACE ?= examples/show.trace
ENGINE ?= crossbar
PREFIX ?= /usr/local
PLACE = $(DESTDIR)$(PREFIX)
ENGINES = crossbar oq
SOURCES = $(shell find crates -name out -prune -o \( -name '*.rt' -o -name '*.antt' \) -print)
 # what the toolchain's library calls in C where a program reads and writes: the number of the last error
SUPPORT = $(dir $(shell rt doc))c/libos_c.a
VERSION = $(shell sed -n 's/^.define CROSSBAR_VERSION "\(.*\)"/\1/p' include/crossbar.h)
.PHONY: help view play player library test bench plot install format clean

help:
	@sed -n 's/^# //p' Makefile

view:
	@mkdir -p target
	@viewer/show.py $(TRACE) $(TRACE:.trace=.out) > target/show.html
	@echo 'target/show.html: open it in a browser'

play: player
	@target/bin/$(ENGINE)-player < $(TRACE) | paste -s -d ' ' | sed 's/ \(slot\|end\|refused\)=/\n\1=/g'

player: $(ENGINES:%=target/bin/%-player)

library: $(ENGINES:%=target/staticlib/lib%.a)

target/bin/%-player: program/main.c target/staticlib/libplayer.a
	@mkdir -p target/bin
	cc -std=c11 -O2 -Wall -Wextra -Werror -DPLAYER=$*_player $^ $(SUPPORT) -o $@

target/staticlib/lib%.a: crates.txt $(SOURCES)
	cd crates/$*_c && rt lib
	install -D -m 644 crates/$*_c/out/lib$*_c.a $@

test:
	.ci/run

bench:
	bench/run

plot:
	bench/plot.py < target/bench/figures.tsv > docs/speed.svg

install: player library
	install -D -t $(PLACE)/bin $(ENGINES:%=target/bin/%-player)
	install -D -m 644 -t $(PLACE)/lib $(ENGINES:%=target/staticlib/lib%.a)
	install -D -m 644 -t $(PLACE)/include $(ENGINES:%=include/%.h)
	install -D -m 644 -t $(PLACE)/share/man/man1 $(ENGINES:%=docs/%-player.1)
	install -d $(PLACE)/lib/pkgconfig
	for engine in $(ENGINES); do \
	    sed 's|@PREFIX@|$(PREFIX)|; s|@VERSION@|$(VERSION)|' $$engine.pc.in > $(PLACE)/lib/pkgconfig/$$engine.pc || exit 1; \
	done

format:
	for crate in crates/*/; do (cd $$crate && rt fmt) || exit 1; done

clean:
	rm -rf target host/target
