# Proves, builds, tests and installs mcserver. It needs the toolchain's command rt, python3 and make; tests and benchmarks a C compiler, cc,
# too. test-clients, test-scaling and test-metrics run what there is of other packages, and name what isn't there.

PROGRAM = crates/mc_server/out/mc_server
# What runs the program builds it first, unless another is named: make test-clients PROGRAM=/usr/bin/memcached
SERVED = $(if $(filter crates/%,$(PROGRAM)),build)
PREFIX ?= /usr/local
BIN = $(DESTDIR)$(PREFIX)/bin
MAN = $(DESTDIR)$(PREFIX)/share/man/man1
DOC = $(DESTDIR)$(PREFIX)/share/doc/mcserver
UNITS = $(DESTDIR)$(PREFIX)/lib/systemd/system
# Where systemd looks by itself.
IS_SYSTEMS = $(filter /usr /usr/local,$(PREFIX))
USER_UNITS = $(DESTDIR)$(PREFIX)/share/systemd/user
DEFAULTS = $(DESTDIR)/etc/default
DOCS = CHANGELOG.md docs/OPERATING.md docs/PROTOCOL.md docs/CLIENTS.md docs/SCALING.md docs/CONTAINERS.md
SHIPPED = LICENSE packaging/prometheus/alerts.yml packaging/prometheus/dashboard.json
# Where the prefix is below a home, nothing of the system's is touched: of units there is at most the user's own.
IN_HOME = $(filter $(HOME)/% /home/% /root/%,$(PREFIX)/)
# Where the package of Debian goes.
PACKAGES ?= out
# The program's own version, as --version prints it.
VERSION = $(shell sed -n 's/^const VERSION: .*"\([0-9.]*\) .*/\1/p' crates/mc_options/src/options.rt)
ARGS ?=
JOBS ?= $(shell nproc)
MINUTES ?= 30

.PHONY: build try bench-build run test check crate rows history fmt bench bench-tcp bench-waiting bench-instructions bench-resident clean
.PHONY: calibrate docs docs-check where test-clients test-scaling test-metrics test-package test-systemd test-containers soak fuzz nightly man install uninstall deb release is-built has-rt thin

# Proves the program and what is below it, and builds it (tools/build.py tells how far it is). It is run once, for --help, which ends it at once. What is
# said goes to standard error, so that `make run` writes what the program writes alone. Beside the program it notes what it was built of.
build:
	@JOBS=$(JOBS) python3 tools/build.py
	@printf 'commit %s\ntoolchain %s\n' "$$(git describe --always --dirty 2> /dev/null)" "$$(rt version)" > $(dir $(PROGRAM))BUILD
	@echo "$(PROGRAM) is proved and built" >&2

# The program unproved, in a minute or two, to try it: out/try/mcserver. Nothing of it is proved, and it is never installed. With FAST=1 it is
# optimized, and has no checks of addresses; with FAST=2 it has no checks at all, to measure speed.
try:
	@python3 tools/try.py $(if $(FAST),$(if $(filter 2,$(FAST)),--bare,--fast))

# The same for the program that is measured and records calls.
bench-build:
	@cd crates/mc_bench && rt run -- worlds 1 1 < /dev/null > /dev/null

# Serves at the default port: make run ARGS="-p 11311 -t 2". Ctrl-C ends it with status 130, which is no failure. By set -m the
# terminal's signal comes to the program alone, as make would say that it was interrupted.
run: build
	@trap : INT; set -m 2> /dev/null; $(PROGRAM) $(ARGS) || { status=$$?; test $$status -eq 130 || exit $$status; }

# The gate: every proof, every must-fail edit, every test of the crates, and the tests of tests/.
test: has-rt
	@python3 -m tests.gate

# The toolchain, without which nothing is proved.
has-rt:
	@command -v rt > /dev/null || { echo "there is no command rt: it is of the kit rattle-kit-13f, and README.md says how to get that; a built program is tested by PROGRAM=/usr/bin/mcserver python3 -m tests protocol" >&2; exit 2; }

# Every crate, over what earlier runs kept in out/.
check: has-rt
	@rt all check --jobs $(JOBS)

# One crate: make crate C=mc_shelf
crate:
	@test -d crates/$(C)/src || { echo "which crate? make crate C=mc_shelf"; exit 2; }
	cd crates/$(C) && rt check
	cd crates/$(C) && rt test
	rt must-fail $(C)

# The crates' wrong bodies, each of which one check must refuse: make wrong C=mc_shelf ONLY=a_cut_is_not_set
wrong:
	@python3 -m tests.wrong $(C) $(if $(ONLY),--only $(ONLY))

# Inputs and outputs against the program that is built: make rows ONLY=flush
rows:
	@python3 -m tests protocol $(if $(ONLY),-p test_rows.py -k '*.Rows.test_*$(ONLY)*')

# Recorded runs of four callers in threads, each explained by an order of their calls: make history CALLS=1000
history: bench-build
	@CALLS=$(CALLS) python3 -m tests history

# The regions of documents that are made from the sources, and out/docs/: every public call, every definition.
docs:
	@python3 docs/make.py

# Whether documents match the sources, and the counts of docs/STYLE.md.
docs-check:
	@python3 docs/make.py --check

# The files in which a name stands, as those that match a variant: make where W=Touch
where:
	@grep -rlw --include=*.rt --include=*.antt -e "$(W)" crates/*/src crates/*/specs crates/*/proofs

fmt:
	@for crate in crates/*/; do (cd $$crate && rt fmt) || exit 1; done

# How fast this machine is, for figures of builds and of the gate
calibrate:
	@python3 bench/calibrate.py

# What it costs. One table of it: make bench ONLY=finds
bench: build bench-build
	@python3 bench/bench.py $(if $(ONLY),--only $(ONLY))

# Over TCP beside memcached, turn about: make bench-tcp OPTIONS="--quick --only get"
bench-tcp: build
	@python3 bench/tcp.py $(OPTIONS)

# The instructions of a request over TCP, by valgrind: make bench-instructions OPTIONS="--now 1000"
bench-instructions: build
	@python3 bench/instructions.py $(OPTIONS)

# The memory of an item over TCP, beside memcached's: make bench-resident OPTIONS="--items 1000000"
bench-resident: build
	@python3 bench/resident.py $(OPTIONS)

# How long polite clients wait beside others, with memcached beside it: make bench-waiting OPTIONS="--quick --only flush"
bench-waiting: build
	@python3 bench/waiting.py --program $(abspath $(PROGRAM)) $(OPTIONS)

# Debian's clients that are installed, each as its documentation uses it.
test-clients: $(SERVED)
	@PROGRAM=$(PROGRAM) /usr/bin/python3 -m tests interop -p test_clients.py

# The configurations of docs/SCALING.md, with nutcracker and the clients that are installed.
test-scaling: $(SERVED)
	@PROGRAM=$(PROGRAM) /usr/bin/python3 -m tests interop -p test_scaling.py

# What --metrics tells, and the rules and the dashboard that are shipped, by promtool and a Prometheus that scrapes it, where Debian's
# package prometheus is installed.
test-metrics: $(SERVED)
	@PROGRAM=$(PROGRAM) /usr/bin/python3 -m tests interop -p test_prometheus.py

# The package: two builds make the same bytes, lintian has nothing to say, and a purge leaves nothing. It wants debhelper, lintian and root.
test-package: $(SERVED)
	@PROGRAM=$(PROGRAM) /usr/bin/python3 -m tests interop -p test_package.py

# The service under a real systemd, in namespaces of its own: start, stop, options, restart, and what it is exposed to. It wants root.
test-systemd: $(SERVED)
	@PROGRAM=$(PROGRAM) /usr/bin/python3 -m tests interop -p test_systemd.py

# The image of packaging/Dockerfile, by its steps: it ends within a second of TERM, and answers its probes. Then a
# limit of memory, above and below what is counted. It wants root, tini, unshare and a group of memory.
test-containers: $(SERVED)
	@PROGRAM=$(PROGRAM) /usr/bin/python3 -m tests interop -p test_containers.py
	@PROGRAM=$(PROGRAM) /usr/bin/python3 -m tests interop -p test_cgroups.py

# Mixed load, whose answers are all checked, while memory and descriptors are watched: make soak MINUTES=30
soak: $(SERVED)
	@PROGRAM=$(PROGRAM) python3 -m tests.soak --minutes $(MINUTES)

# Inputs that AFL++ makes, one of each path of which the model judges; it wants Debian's package afl++: make fuzz MINUTES=60
fuzz: $(SERVED)
	@PROGRAM=$(PROGRAM) python3 -m tests.fuzz --minutes $(MINUTES) --jobs $(JOBS)

# What takes too long for the gate, hours in all, or one step of it: make nightly STEP=soak
nightly: $(SERVED) $(if $(SERVED),bench-build)
	@PROGRAM=$(PROGRAM) python3 -m tests.nightly $(STEP)

# The manual page: man has nothing to say of it, and its options are the program's.
man: $(SERVED)
	@man/check.sh $(PROGRAM)

# It builds nothing, so that whoever installs needs no toolchain.
is-built:
	@test -x $(PROGRAM) || { echo "$(PROGRAM) isn't there: run make build first, as the user who has the toolchain" >&2; exit 1; }

# The program, its manual page, its documents, and services of systemd: make install PREFIX=/usr DESTDIR=/tmp/root
install: is-built
	install -d $(BIN) $(MAN) $(DOC)
	install -m 755 $(PROGRAM) $(BIN)/mcserver
	install -m 644 man/mcserver.1 $(MAN)/mcserver.1
	for it in $(DOCS); do sed -f packaging/installed.sed $$it > $(DOC)/$${it##*/} && chmod 644 $(DOC)/$${it##*/} || exit 1; done
	install -m 644 $(SHIPPED) $(DOC)
	test ! -f $(dir $(PROGRAM))BUILD || install -m 644 $(dir $(PROGRAM))BUILD $(DOC)/BUILD
ifeq ($(IN_HOME),)
	install -d $(UNITS)
	sed 's|/usr/local/bin/|$(PREFIX)/bin/|' packaging/mcserver.service > $(UNITS)/mcserver.service
	sed -f packaging/instance.sed $(UNITS)/mcserver.service > $(UNITS)/mcserver@.service
	chmod 644 $(UNITS)/mcserver.service $(UNITS)/mcserver@.service
ifneq ($(IS_SYSTEMS),)
	install -d $(DEFAULTS)
	test -e $(DEFAULTS)/mcserver || install -m 644 packaging/mcserver.default $(DEFAULTS)/mcserver
else
	@echo "systemd doesn't look below $(PREFIX): systemctl link $(PREFIX)/lib/systemd/system/mcserver.service; its options go into /etc/default/mcserver" >&2
endif
else ifeq ($(PREFIX),$(HOME)/.local)
	install -d $(USER_UNITS)
	install -m 644 packaging/mcserver.user.service $(USER_UNITS)/mcserver.service
else
	@echo "no service is installed: a user's own systemd looks below $(HOME)/.local alone" >&2
endif

# What was installed, but for /etc/default/mcserver, in which there may be options.
uninstall:
	rm -f $(BIN)/mcserver $(MAN)/mcserver.1
	rm -rf $(DOC)
ifeq ($(IN_HOME),)
	rm -f $(UNITS)/mcserver.service $(UNITS)/mcserver@.service
else
	rm -f $(USER_UNITS)/mcserver.service
endif

# Half of the disk: what a build and the crates above stand on stays; a crate that is changed is proved from nothing then.
thin:
	@rm -rf crates/*/out/incremental

# A package of Debian, by debhelper: out/mcserver_VERSION_amd64.deb
deb: is-built
	@sh packaging/deb.sh $(VERSION)-1 $(PACKAGES)

# What a release offers, of what is built: the package, a tar, checksums, and what they were built of.
release: is-built
	@PROGRAM=$(abspath $(PROGRAM)) sh packaging/release.sh $(VERSION) out/release

clean:
	rm -rf crates/*/out
