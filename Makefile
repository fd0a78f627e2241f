# make try      weaves examples/hello.w without any proof, in about half a minute
#               (into build/, since a trial run keeps no file of its own)
# make hello    proves and builds cweave, and weaves examples/hello.w
# make programs proves and builds all programs: $(PROGRAMS)
#               (both prove crates side by side, as many as processors and memory allow; JOBS=1 proves one after another)
# make book     weaves, compiles and typesets the examples, as far as ctangle, cc and TeX are there
# make install  puts the programs into PREFIX/bin and their man pages into PREFIX/share/man/man1; make uninstall takes them away
# make gate     every proof, must-fail edit, test and program
# make bench    instructions per input byte and peak memory for webs of stated sizes, and of the other programs beside cweave
# make hostile  refused memory, failing devices, and large webs that no one would write
# make outside  failing calls of the system with what is printed of each, names, folders of CWEBINPUTS, and links
# make picture  makes docs/hello.png anew
PREFIX ?= /usr/local
PROGRAMS = cweave cwlog cwplain cwmini
PROGRAM = build/cweave
BUILT = $(PROGRAMS:%=build/%)
BINDIR = $(DESTDIR)$(PREFIX)/bin
MANDIR = $(DESTDIR)$(PREFIX)/share/man/man1

.PHONY: all try hello programs book install uninstall gate bench hostile outside picture clean

all: $(PROGRAM)

programs:
	tools/prove $(JOBS:%=--jobs %) $(PROGRAMS)
	cp $(foreach it,$(PROGRAMS),crates/$(it)/out/$(it)) build

# A change of any crate is proved again before a program is built.
build/%: $(shell find crates -name '*.rt' -o -name '*.antt' 2>/dev/null) crates.txt
	tools/prove $(JOBS:%=--jobs %) $*
	cp crates/$*/out/$* $@

try:
	mkdir -p build
	cd crates/cweave && rt try --data hello.w=../../examples/hello.w -- hello - $(CURDIR)/build/try
	cat build/try.tex
	@echo "Nothing was proved: this was a trial run. 'make hello' proves the program and then runs it."

hello: $(PROGRAM)
	cd build && cp ../examples/hello.w . && ./cweave hello
	cat build/hello.tex

book: $(PROGRAM)
	tools/book

install: $(BUILT)
	install -d $(BINDIR) $(MANDIR)
	install -m 755 $(BUILT) $(BINDIR)
	install -m 644 $(PROGRAMS:%=docs/%.1) $(MANDIR)

uninstall:
	rm -f $(PROGRAMS:%=$(BINDIR)/%) $(PROGRAMS:%=$(MANDIR)/%.1)

gate:
	.ci/run

bench: $(BUILT)
	bench/run
	bench/tools

hostile: $(BUILT)
	tools/hostile

outside: $(PROGRAM)
	tools/outside

picture: $(PROGRAM)
	tools/picture

clean:
	rm -rf build
