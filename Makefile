# make            proves what is not proved, and writes the archives, the shared objects and all else that is installed to $(PACKAGE)
# make demo       runs ./demo
# make test       runs the gate, .ci/run
# make install    installs what make wrote below PREFIX, with DESTDIR before it; make uninstall removes what was installed
# make dist       writes $(PACKAGE).tar.gz, which installs without the Rattle kit, by package/Makefile
PREFIX = /usr/local
DESTDIR =
PACKAGE := target/seglink-$(shell tests/number seglink)

.PHONY: all demo test install uninstall dist
.NOTPARALLEL:

all:
	@package/build $(PACKAGE)

demo:
	@./demo

test:
	@.ci/run

# another user, who installs, writes nothing to the package: it is made first only if there is none
install uninstall: | $(PACKAGE)/Makefile
	@$(MAKE) --no-print-directory -C $(PACKAGE) $@ PREFIX='$(PREFIX)' DESTDIR='$(DESTDIR)'

$(PACKAGE)/Makefile:
	@package/build $(PACKAGE)

dist: all
	@package/tarball $(PACKAGE)
