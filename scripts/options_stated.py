"""The options in the code, the help, the manual pages, docs/LANGUAGE.md and the completions, for
scripts/check_docs.py."""
import re

OPTION = re.compile(r"(?<![\w-])--?[A-Za-z][a-z-]*")


def of_code(text):
    """The options that the program's command line is made with, and those of help."""
    named = re.findall(r'\.long\("([a-z-]+)"\)', text) + re.findall(r'[^\w]file\(\s*alloc,\s*"([a-z-]+)"', text)
    short = re.findall(r"\.short\('(.)'\)", text)
    return {"--" + name for name in named} | {"-" + name for name in short} | {"-h", "--help"}


def of_help(text):
    """The options that a help text begins a line with."""
    found = set()
    for line in text.splitlines():
        match = re.match(r" {2,6}(-[^ ,]+( [^ ,]+)?(, -[^ ,]+( [^ ,]+)?)*)", line)
        if match:
            found |= set(OPTION.findall(match.group(1)))
    return found


def of_page(text):
    """The options that the part OPTIONS of a manual page is about."""
    part = re.search(r"^\.SH OPTIONS\n(.*?)^\.SH", text, re.MULTILINE | re.DOTALL).group(1).replace("\\-", "-")
    part = re.sub(r"\\f.", " ", part)
    lines = re.findall(r"(?:^\.TP\n\.\w+ |^\.B[IR] (?=-))(.*)$", part, re.MULTILINE)
    return {option for line in lines for option in OPTION.findall(line)}


def of_table(text):
    """The options that begin a row of a table."""
    rows = re.findall(r"^\| (`-.*?) \|", text, re.MULTILINE)
    return {option for row in rows for option in OPTION.findall(row)}


def of_zsh(text):
    """The options that the completions for zsh name."""
    found = set(re.findall(r"'(?:\([^)]*\))?(--?[a-z-]+)", text))
    for group in re.findall(r"\{(-[^}]*)\}", text):
        found |= {word.rstrip("=") for word in group.split(",")}
    return {option.rstrip("=+") for option in found}


def of_fish(text):
    """The options that the completions for fish name."""
    lines = "".join(re.findall(r"^ *complete -c.*\n", text, re.MULTILINE))
    long, short = re.findall(r" -l ([a-z-]+)", lines), re.findall(r" -s (\w)", lines)
    return {"--" + name for name in long} | {"-" + name for name in short}
