# `make run` does the main job on the example day, `make dist` packs the programs and tools for a laptop, `make test` runs every check, `make bench`
# measures (it is no test), `make install PREFIX=FOLDER` puts the C library, its header and a pkg-config file into a folder. `make board` makes the
# library for a board's processor (`TARGET=.. OPTIONS=..` for one that is not listed), `make board-demo` shows a small kernel around it on emulated
# boards, `make board-bench` counts its instructions on one.
.PHONY: run dist test bench install board board-demo board-bench

run:
	@tools/run

dist:
	@tools/dist

test:
	@tools/test

bench:
	@tools/bench

install:
	@PREFIX='$(PREFIX)' DESTDIR='$(DESTDIR)' tools/install

board:
	@tools/board $(TARGET) $(OPTIONS)

board-demo:
	@tools/board-demo

board-bench:
	@tools/board-bench
