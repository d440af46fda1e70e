# No byte at all: three empty sections are placed and none is laid.
