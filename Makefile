# make run    proves, builds and runs the card reader on the sample in demo/
# make test   the gate
# make c      the static library, and the C example over it on the sample
# make compare  the card line against the second reader, on many cards

CC ?= cc
CFLAGS ?= -O2 -Wall -Wextra -Werror
LIBRARY = target/staticlib/libportbook.a
PROGRAM = crates/portbook_card/out/portbook_card

.PHONY: run test c compare library program

run: program
	cd demo && ../$(PROGRAM)

test:
	.ci/run

# It runs the program once too, in a folder with no card: what it prints there is not wanted.
program:
	cd crates/portbook_card && rt run > /dev/null

library:
	cd crates/portbook_c && rt lib
	mkdir -p target/staticlib
	cp crates/portbook_c/out/libportbook_c.a $(LIBRARY)

c: library
	mkdir -p target/c
	$(CC) $(CFLAGS) -Iinclude examples/c/card_screen.c $(LIBRARY) -o target/c/card_screen
	target/c/card_screen demo/card.txt > target/c/card_screen.out
	cmp target/c/card_screen.out examples/c/card_screen.out
	cat target/c/card_screen.out

compare: library
	mkdir -p target/c
	$(CC) $(CFLAGS) -Iinclude tests/card/harness.c $(LIBRARY) -o target/c/harness
	PYTHONDONTWRITEBYTECODE=1 python3 tests/card/compare.py target/c/harness
