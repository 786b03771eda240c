"""From IDL to signature files: the parts of the back end `giopdump_signatures`."""

VERSION = "1.0.0"  # as giopdump has it: checks/manual.sh
