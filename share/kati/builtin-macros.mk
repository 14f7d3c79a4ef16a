# The macros that make has by itself. kati has none: include this file before a makefile, and builtin-rules.mk, which
# has the rules for C, C++, assembler, lex and yacc, after it. Each may be assigned anew by the makefile or on the
# command line.

AR = ar
ARFLAGS = rv
AS = as
CC = cc
CXX = g++
CPP = $(CC) -E
LD = ld
LEX = lex
YACC = yacc
RM = rm -f

OUTPUT_OPTION = -o $@

# One file translated: COMPILE by its suffix. All files bound to a program: LINK by that of the first.
COMPILE.c = $(CC) $(CFLAGS) $(CPPFLAGS) $(TARGET_ARCH) -c
LINK.c = $(CC) $(CFLAGS) $(CPPFLAGS) $(LDFLAGS) $(TARGET_ARCH)
COMPILE.cc = $(CXX) $(CXXFLAGS) $(CPPFLAGS) $(TARGET_ARCH) -c
LINK.cc = $(CXX) $(CXXFLAGS) $(CPPFLAGS) $(LDFLAGS) $(TARGET_ARCH)
COMPILE.C = $(COMPILE.cc)
LINK.C = $(LINK.cc)
COMPILE.cpp = $(COMPILE.cc)
LINK.cpp = $(LINK.cc)
COMPILE.s = $(AS) $(ASFLAGS) $(TARGET_MACH)
LINK.s = $(CC) $(ASFLAGS) $(LDFLAGS) $(TARGET_MACH)
COMPILE.S = $(CC) $(ASFLAGS) $(CPPFLAGS) $(TARGET_MACH) -c
LINK.S = $(CC) $(ASFLAGS) $(CPPFLAGS) $(LDFLAGS) $(TARGET_MACH)
LINK.o = $(CC) $(LDFLAGS) $(TARGET_ARCH)

PREPROCESS.S = $(CC) -E $(CPPFLAGS)
LEX.l = $(LEX) $(LFLAGS) -t
YACC.y = $(YACC) $(YFLAGS)

# Of languages whose rules aren't there: makefiles name them.
CO = co
CTANGLE = ctangle
CWEAVE = cweave
F77 = $(FC)
F77FLAGS = $(FFLAGS)
FC = f77
GET = get
LINT = lint
M2C = m2c
MAKEINFO = makeinfo
OBJC = cc
PC = pc
TANGLE = tangle
TEX = tex
TEXI2DVI = texi2dvi
WEAVE = weave
COMPILE.F = $(FC) $(FFLAGS) $(CPPFLAGS) $(TARGET_ARCH) -c
LINK.F = $(FC) $(FFLAGS) $(CPPFLAGS) $(LDFLAGS) $(TARGET_ARCH)
COMPILE.f = $(FC) $(FFLAGS) $(TARGET_ARCH) -c
LINK.f = $(FC) $(FFLAGS) $(LDFLAGS) $(TARGET_ARCH)
COMPILE.m = $(OBJC) $(OBJCFLAGS) $(CPPFLAGS) $(TARGET_ARCH) -c
LINK.m = $(OBJC) $(OBJCFLAGS) $(CPPFLAGS) $(LDFLAGS) $(TARGET_ARCH)
COMPILE.p = $(PC) $(PFLAGS) $(CPPFLAGS) $(TARGET_ARCH) -c
LINK.p = $(PC) $(PFLAGS) $(CPPFLAGS) $(LDFLAGS) $(TARGET_ARCH)
COMPILE.r = $(FC) $(FFLAGS) $(RFLAGS) $(TARGET_ARCH) -c
LINK.r = $(FC) $(FFLAGS) $(RFLAGS) $(LDFLAGS) $(TARGET_ARCH)
COMPILE.def = $(M2C) $(M2FLAGS) $(DEFFLAGS) $(TARGET_ARCH)
COMPILE.mod = $(M2C) $(M2FLAGS) $(MODFLAGS) $(TARGET_ARCH)
PREPROCESS.F = $(FC) $(FFLAGS) $(CPPFLAGS) $(TARGET_ARCH) -F
PREPROCESS.r = $(FC) $(FFLAGS) $(RFLAGS) $(TARGET_ARCH) -F
LEX.m = $(LEX) $(LFLAGS) -t
YACC.m = $(YACC) $(YFLAGS)
LINT.c = $(LINT) $(LINTFLAGS) $(CPPFLAGS) $(TARGET_ARCH)
