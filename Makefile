# The commands of the README. From nothing each takes 45 minutes to three hours, since what it makes is proved. Some
# kits keep on the machine what passed, and a later run proves only what changed; others begin anew each time.
.PHONY: cppfilt lib test

# The gate, which proves and builds the programs, and leaves them here as ./cppfilt and ./cppfilt_text.
cppfilt:
	@log=$$(mktemp); \
	echo "proving and building cppfilt: 45 minutes to three hours the first time; how far it is stands in $$log"; \
	if rt ci > "$$log" 2>&1; then \
	    rm -f "$$log"; \
	else \
	    cat "$$log"; rm -f "$$log"; exit 1; \
	fi
	@cp crates/cppfilt/out/cppfilt cppfilt
	@cp crates/cppfilt_text/out/cppfilt_text cppfilt_text
	@echo "built ./cppfilt and ./cppfilt_text"

# The library for C, and what it stands on: proves them, and leaves ./libcpp_demangle.a and ./cpp_demangle.h here.
lib:
	@echo "proving and building the library for C: 45 minutes to three hours the first time"
	@tools/c_archive.py
	@echo "built ./libcpp_demangle.a; ./cpp_demangle.h declares its calls"

# The gate: every proof, the must-fail edits, the tests and the program.
test:
	@rt ci
