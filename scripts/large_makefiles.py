"""Makefiles of any size, for scripts/times.py and other scripts that measure.

Each shape is a function of a number. It returns the files by their names, `Makefile` among them, and the names of the
sources. kati, ckati and GNU make accept all of them, except that ckati does not know the group of targets."""

MOST = 2**24  # bytes that kati takes in one makefile


def lines(count, line):
    """So many lines, each with its number."""
    return "".join(line.format(i=i, next=i + 1) for i in range(count))


def words(count, word):
    return " ".join(word.format(i=i) for i in range(count))


def scattered(count, names):
    """So many words of ten digits out of a number of names, in an order that stays the same."""
    state, found = 1, []
    for _ in range(count):
        state = (state * 6364136223846793005 + 1442695040888963407) % 2**64
        found.append(f"{(state >> 20) % names:010}")
    return " ".join(found)


def rules(count):
    text = "CC = cc\nCFLAGS = -O2 -Wall\nall: " + words(count, "t{i}") + "\n"
    for i in range(count):
        text += f"t{i}: s{i}.c h{i % 100}.h\n\t$(CC) $(CFLAGS) -o $@ $<\n"
    return {"Makefile": text}, [f"s{i}.c" for i in range(count)] + [f"h{i}.h" for i in range(100)]


def pattern(count):
    names = [f"d{i % 50}/f{i}" for i in range(count)]
    text = "OBJS = " + " ".join(f"{name}.o" for name in names) + "\nall: $(OBJS)\n%.o: %.c\n\tcc -O2 -c $< -o $@\n"
    return {"Makefile": text}, [f"{name}.c" for name in names]


def two_patterns(count):
    text = "all: " + words(count, "f{i}.o") + "\n"
    for target, source in ("os", "of", "oc", "cl", "cy"):
        text += f"%.{target}: %.{source}\n\tmake-{target} $< > $@\n"
    return {"Makefile": text}, [f"f{i}.y" for i in range(count)]


MODULE = """all:
define object
out/$(1)/$(2).o: $(1)/$(2).c include/a.h
	@echo "$(1) <= $(2)"
	cc $($(1)_FLAGS) $(foreach d,$($(1)_FOLDERS),-I$(d)) -c $$< -o $$@
endef
define module
all_modules += out/lib$(1).a
$(foreach s,$($(1)_SOURCES),$(eval $(call object,$(1),$(s))))
out/lib$(1).a: $(foreach s,$($(1)_SOURCES),out/$(1)/$(s).o)
	ar rc $$@ $$^
endef
"""


def modules(count):
    """A tenth of the count are modules, of nine objects and a library each."""
    text, sources = MODULE, ["include/a.h"]
    for i in range(count // 10):
        text += f"m{i}_SOURCES := {words(9, 'f{i}')}\nm{i}_FLAGS := -Dm{i}\nm{i}_FOLDERS := include m{i}/include\n"
        sources += [f"m{i}/f{j}.c" for j in range(9)]
    text += f"MODULES := {words(count // 10, 'm{i}')}\n$(foreach m,$(MODULES),$(eval $(call module,$(m))))\n"
    return {"Makefile": text + "all: $(all_modules)\n"}, sources


def included(count):
    files = {"Makefile": "all:\n" + lines(count, "include mk/m{i}.mk\n") + "all: $(objects)\n"}
    for i in range(count):
        files[f"mk/m{i}.mk"] = f"name := f{i}\nobjects += $(name).o\n$(name).o: $(name).c common.h\n\tcc -c $< -o $@\n"
    return files, [f"f{i}.c" for i in range(count)] + ["common.h"]


TEXT_FUNCTIONS = """C := $(filter %.c,$(W))
O := $(patsubst src/%.c,obj/%.o,$(C)) $(filter-out %.c,$(W:.s=.o))
U := $(sort $(O))
P := $(addprefix out/,$(addsuffix .d,$(U)))
B := $(subst obj/,bin/,$(U))
N := $(notdir $(basename $(W)))
J := $(join $(dir $(U)),$(notdir $(U)))
F := $(foreach x,$(U),$(x).x)
all: ; @echo $(words $(C) $(O) $(P) $(B) $(N) $(J) $(F)) $(lastword $(P)) $(firstword $(J)) $(word 10,$(W))
"""


def text_functions(count):
    names = (f"src/d{i * 7919 % 97}/f{i * 104729 % count}.{'c' if i % 3 else 's'}" for i in range(count))
    return {"Makefile": "W := " + " ".join(names) + "\n" + TEXT_FUNCTIONS}, []


def chain(count):
    return {"Makefile": "all: t0\n" + lines(count, "t{i}: t{next}\n\tcp $< $@\n")}, [f"t{count}"]


def prerequisites(count):
    return {"Makefile": f"prog: {words(count, 'o{i}.o')}\n\tld -o $@ $^\n"}, [f"o{i}.o" for i in range(count)]


def lists_of_names(count):
    names = words(count, "d/o{i}.o")
    return {"Makefile": f"prog: {names}\n\tld -o $@ $^\n\techo $(^F)\n"}, names.split()


def headers(count):
    """Objects that need the same hundred headers each."""
    needed = words(100, "include/h{i}.h")
    text = f"HEADERS = {needed}\nall: {words(count, 'f{i}.o')}\n%.o: %.c\n\tcc -c $< -o $@\n"
    return {"Makefile": text + lines(count, "f{i}.o: $(HEADERS)\n")}, [f"f{i}.c" for i in range(count)] + needed.split()


def recipes(count):
    body = "".join(
        f"\t@echo 'step {j} of $(@F)' \"$$HOME\" $(if $(filter {j % 3},0),$<,$^) $(NAME) >> $@.log\n"
        if j % 2 else f"\t-$(COMMAND) --in=$< --out=$@ -D'x{j}' \\\n\t  --dir=$(@D) && :\n"
        for j in range(10)
    )
    text = f"NAME = name\nCOMMAND = command $(NAME)\nall: {words(count, 'out/t{i}')}\n"
    text += "".join(f"out/t{i}: s{i} s{i + 1}\n{body}" for i in range(count))
    return {"Makefile": text}, [f"s{i}" for i in range(count + 1)]


def canned_recipes(count):
    """Ten recipe lines for each node, in a makefile that holds them once."""
    text = f"all: {words(count, 't{i}')}\ndefine steps\n"
    text += "".join(f"step-{j} $< > $@.{j}\n" for j in range(10)) + "endef\n"
    return {"Makefile": text + lines(count, "t{i}: s{i}\n\t$(steps)\n")}, [f"s{i}" for i in range(count)]


def macros(count):
    text = lines(50, "K{i} = k{i}\n") + lines(10, "L{i} := $(K{i}) l\n")
    text += "".join(f"V{i} = w{i} $(K{i % 50}) $(L{i % 10})\n" for i in range(count)) + "all:\n"
    for i in range(0, count, 20):
        text += "\t@echo " + " ".join(f"$(V{j})" for j in range(i, min(count, i + 20))) + "\n"
    return {"Makefile": text}, []


def conditionals(count):
    text = "A = 3\n"
    for i in range(count):
        text += f"ifeq ($(A),{i % 5})\nX{i % 100} := yes {i}\nelse ifneq \"$(X{(i + 1) % 100})\" \"\"\n"
        text += f"X{i % 100} := else {i}\nelse\nX{i % 100} := no\nendif\n"
    return {"Makefile": text + "all: ; @echo " + words(100, "$(X{i})") + "\n"}, []


def group(count):
    return {"Makefile": f"all: g0\n{words(count, 'g{i}')} &: source\n\tgenerate $<\n"}, ["source"]


def static_pattern(count):
    names = words(count, "f{i}.o")
    return {"Makefile": f"all: {names}\n{names}: %.o: %.c\n\tcc -c $<\n"}, [f"f{i}.c" for i in range(count)]


def sorted_words(count):
    return {"Makefile": f"all: ; @echo $(words $(sort {scattered(count, 50_000)}))\n"}, []


def sorted_distinct(count):
    return {"Makefile": f"all: ; @echo $(words $(sort {scattered(count, 10**10)}))\n"}, []


def filtered(count):
    patterns = scattered(10_000, 50_000)
    return {"Makefile": f"all: ; @echo $(words $(filter {patterns},{scattered(count, 50_000)}))\n"}, []


def substituted(count):
    return {"Makefile": f"all: ; @echo $(words $(patsubst %0,%1,{scattered(count, 50_000)}))\n"}, []


def continued(count):
    return {"Makefile": "W := " + scattered(count, 50_000).replace(" ", " \\\n") + "\nall: ; @echo $(words $(W))\n"}, []


def suffixes(count):
    """So many suffixes, and as many targets that have the form of suffix rules and that a goal needs."""
    text = ".SUFFIXES: " + words(count, ".{i:05}q") + "\nall: " + words(count, ".{i:05}r") + "\n"
    return {"Makefile": text + lines(count, ".{i:05}r: ;\n")}, []


def nested_conditionals(count):
    return {"Makefile": "ifndef X\n" * count + "$(info in)\n" + "endif\n" * count}, []


def repeated(size, unit, after="\n"):
    """A makefile of a unit again and again, of so many bytes at most."""
    return {"Makefile": unit * ((size - len(after)) // len(unit)) + after}, []
