# What a user does, a target each; install.mk has 'install' and 'uninstall'.
.PHONY: lib demo test bench check format statement dist clean

archive := crates/lutniorad/out/liblutniorad.a

# The library for C, proved. Its header is include/lutniorad.h.
lib:
	@. tests/tools.sh && proving lib lutniorad || { rm -f $(archive); exit 1; } # else an older one stays
	@echo '$(archive) is the library, proved'

# The window program, crates/window_program/out/window_program, and what it prints on a map of 4 by 4 pixels.
demo:
	@. tests/tools.sh && need $$to_run && build_window_program
	@echo 'On its standard input the window program gets a map of 4 by 4 pixels and a window, row 0, column 1, 3 by 3.'
	@echo 'It prints the window, its openings (key, first record, records), its classes (class, pixels) and the totals:'
	@. tests/tools.sh && run_window_program <crates/window_program/stdin

# Every test there is: the gate.
test:
	.ci/run

# The instructions of each operation, beside those of plain C.
bench:
	bench/run

# The proofs alone, and only of what has changed.
check:
	rt all check

# Lays out every Rattle and antt file as the gate wants it.
format:
	@for crate in crates/*/; do (cd "$$crate" && rt fmt) || exit; done

# docs/STATEMENT.md, the page of all that the calls promise, anew from the crates.
statement:
	@. tests/tools.sh && need python3:python3 && python3 docs/statement.py

include install.mk

# The folder that is installed from, and that is packed.
kit := target/dist/lutniorad-$(version)

install: $(kit)

# Only where it is missing: whoever installs may have no toolchain.
$(archive):
	@$(MAKE) -s lib

# The shared library is the archive, with the calls of the header and nothing else to be seen from outside. Of the C
# library it takes what the archive asks for, found when it is loaded and not at the first call.
$(kit): $(archive) Makefile install.mk README.md include/lutniorad.h docs/manual.awk examples $(wildcard examples/*)
	@rm -rf $@ $@.part && mkdir -p $@.part/include $@.part/lib
	@cp install.mk $@.part/Makefile && cp -R README.md examples $@.part
	@cp include/lutniorad.h $@.part/include && cp $(archive) $@.part/lib
	@awk -f docs/manual.awk include/lutniorad.h >$@.part/lutniorad.3
	@. tests/tools.sh && need gcc:gcc,libc6-dev $$to_build && echo '{ global: lutniorad_*; local: *; };' \
	    | "$$cc" -shared -nostdlib -o $@.part/lib/$(shared) -Wl,--whole-archive $(archive) -Wl,--no-whole-archive -lc \
	        -Wl,-soname,$(soname),--version-script=/dev/stdin,-z,defs,-z,now,-z,relro,-z,noexecstack
	@mv $@.part $@

# The library for those who have no toolchain, in a tarball that is the same whenever and wherever it is made.
dist: $(kit)
	@tar -cf $(kit).tar -C $(dir $(kit)) --format=ustar --sort=name --owner=0 --group=0 --numeric-owner \
	    --mode=u=rwX,go=rX --mtime='2000-01-01 00:00:00 UTC' $(notdir $(kit))
	@gzip -9nf $(kit).tar
	@echo '$(kit).tar.gz is the tarball'

# Removes all that is made here, by the tests too.
clean:
	rm -rf target crates/*/out
