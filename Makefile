# make run: the first verdicts, over the real list. make build: the proved programs. make install: puts them in place, or a
# first spdx without proof, where they aren't built.
# make install_library: the library for C, C++ and Python; make samples: its samples; make library_speed: measures it.
# make speed CRATE=FOLDER: processor time against the published Rust crate, whose sources are in FOLDER; CORPUS=FILE has
# expressions with their weights.
# make test: the whole gate. It has the proofs, the rows and the stored runs; make quotes, theorem and known: what the pages
# and the list inside say is what the files hold; make growths: each growth of memory refused to each call; make program
# and commands: the built programs as their users run them, in hostile surroundings too; make verdicts: verdicts on random
# packages; make hostile: odd files, and kills. Beside the proofs it tries those wrong bodies that planted/always.txt names, and a
# tenth of all, which the prover has to refuse.
PREFIX ?= /usr/local
LINES := crates/spdx_lines_main/out/spdx_lines_main
SPDX := crates/spdx_main/out/spdx_main

.PHONY: run build install install_library quotes theorem known growths program commands verdicts hostile planted samples sql speed \
	library_speed test

run:
	@tools/run

build:
	@tools/build

install:
	@tools/install "$(DESTDIR)$(PREFIX)"

# The library for C, C++ and Python.
install_library:
	@DESTDIR="$(DESTDIR)" tools/install_library "$(PREFIX)"

# Whether the pages quote files as they are; whether the table of crates, the page of calls and the completions are what the
# sources and --help say, which tools/crates, tools/calling and tools/completions write; and whether the completions answer.
quotes:
	@tools/quotes
	@tools/crates --check
	@tools/calling --check
	@tools/completions --check
	@tools/try_completions

# Whether docs/THEOREM.md is what the sources say, which tools/theorem writes; and whether what docs/PROMISES.md names is there.
theorem:
	@tools/theorem --check
	@tools/promises

growths:
	@tools/growths

program: $(LINES)
	@tools/program $(LINES)

commands: $(SPDX)
	@tools/commands $(SPDX)

# Verdicts on random packages against the definition, computed another way.
verdicts: $(SPDX)
	@tools/verdicts $(SPDX)

# The program over odd files and names, and killed while it writes: what docs/PROGRAM.md says that it keeps.
hostile: $(SPDX)
	@tools/hostile $(SPDX)

# All wrong bodies of planted/, over the libraries that make test left, and what make build kept of the proofs; and the samples,
# with the sanitizers.
planted:
	@tools/planted
	@tools/samples

# The samples in C, C++ and Python, over the library, which is proved and built first where it isn't: minutes, so it is no
# part of the gate.
samples:
	@tools/samples

# The extension of SQLite, built and tried. It needs sqlite3 and its headers.
sql:
	@tools/sql

# Whether data/ is as tools/list makes it, and the list inside the program is what data/ has; tools/known writes it.
known:
	@tools/list --check
	@tools/known --check

$(LINES):
	@tools/build spdx_lines_main

$(SPDX):
	@tools/build spdx_main

# It measures, and is no part of the gate.
speed:
	@tools/speed "$(CRATE)" "$(CORPUS)"

library_speed:
	@tools/library_speed

# What takes seconds comes first. The programs are run as rt ci has built them.
test:
	@tools/gate tools/quotes "tools/crates --check" "tools/calling --check" "tools/theorem --check" tools/promises "tools/list --check" "tools/known --check" "tools/planted --check" \
		"tools/planted --gate rt ci" tools/growths "tools/program $(LINES)" "tools/commands $(SPDX)" "tools/verdicts $(SPDX)" \
		"tools/hostile $(SPDX)" tools/truth_tables
