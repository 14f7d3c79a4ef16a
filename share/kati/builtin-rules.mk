# The rules that make has by itself, for C, C++, assembler, lex and yacc, by the macros of builtin-macros.mk. kati has
# none: include this file after a makefile, so that the makefile's own rules come first.
#
# A rule with the targets and prerequisites of an older one would remove it. So each rule here has its first
# prerequisite twice, which changes nothing else: $< is the first, and $^ holds each once.
#
# KATI_TAKEN_BACK has the suffixes of those that aren't to be: `.c` for the one by which x is made from x.c, `.c.o` for
# x.o. make's own are taken back by a rule without a recipe, as `%.o: %.c`, or by an empty .SUFFIXES.

ifeq ($(filter .o,$(KATI_TAKEN_BACK)),)
%: %.o %.o
	$(LINK.o) $^ $(LOADLIBES) $(LDLIBS) -o $@
endif

ifeq ($(filter .c,$(KATI_TAKEN_BACK)),)
%: %.c %.c
	$(LINK.c) $^ $(LOADLIBES) $(LDLIBS) -o $@
endif

ifeq ($(filter .c.o,$(KATI_TAKEN_BACK)),)
%.o: %.c %.c
	$(COMPILE.c) $(OUTPUT_OPTION) $<
endif

ifeq ($(filter .cc,$(KATI_TAKEN_BACK)),)
%: %.cc %.cc
	$(LINK.cc) $^ $(LOADLIBES) $(LDLIBS) -o $@
endif

ifeq ($(filter .cc.o,$(KATI_TAKEN_BACK)),)
%.o: %.cc %.cc
	$(COMPILE.cc) $(OUTPUT_OPTION) $<
endif

ifeq ($(filter .C,$(KATI_TAKEN_BACK)),)
%: %.C %.C
	$(LINK.C) $^ $(LOADLIBES) $(LDLIBS) -o $@
endif

ifeq ($(filter .C.o,$(KATI_TAKEN_BACK)),)
%.o: %.C %.C
	$(COMPILE.C) $(OUTPUT_OPTION) $<
endif

ifeq ($(filter .cpp,$(KATI_TAKEN_BACK)),)
%: %.cpp %.cpp
	$(LINK.cpp) $^ $(LOADLIBES) $(LDLIBS) -o $@
endif

ifeq ($(filter .cpp.o,$(KATI_TAKEN_BACK)),)
%.o: %.cpp %.cpp
	$(COMPILE.cpp) $(OUTPUT_OPTION) $<
endif

ifeq ($(filter .y.c,$(KATI_TAKEN_BACK)),)
%.c: %.y %.y
	$(YACC.y) $<
	mv -f y.tab.c $@
endif

ifeq ($(filter .l.c,$(KATI_TAKEN_BACK)),)
%.c: %.l %.l
	@$(RM) $@
	$(LEX.l) $< > $@
endif

ifeq ($(filter .s,$(KATI_TAKEN_BACK)),)
%: %.s %.s
	$(LINK.s) $^ $(LOADLIBES) $(LDLIBS) -o $@
endif

ifeq ($(filter .s.o,$(KATI_TAKEN_BACK)),)
%.o: %.s %.s
	$(COMPILE.s) -o $@ $<
endif

ifeq ($(filter .S,$(KATI_TAKEN_BACK)),)
%: %.S %.S
	$(LINK.S) $^ $(LOADLIBES) $(LDLIBS) -o $@
endif

ifeq ($(filter .S.o,$(KATI_TAKEN_BACK)),)
%.o: %.S %.S
	$(COMPILE.S) -o $@ $<
endif

ifeq ($(filter .S.s,$(KATI_TAKEN_BACK)),)
%.s: %.S %.S
	$(PREPROCESS.S) $< > $@
endif

ifeq ($(filter .sh,$(KATI_TAKEN_BACK)),)
%: %.sh %.sh
	cat $< >$@ 
	 chmod a+x $@
endif
