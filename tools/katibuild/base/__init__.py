"""The operating system: files, programs, signals and messages. Nothing here knows of makefiles."""
