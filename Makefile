# mailquota: `make build` proves and compiles the program, `make demo` plays a day of it, `make check` is the gate.
# They need the Rattle kit, with its command rt on the PATH, and Python 3, which rt needs too.

RT = rt
PROGRAM = crates/mailquota/out/mailquota

DESTDIR =
PREFIX = /usr/local
SBINDIR = $(PREFIX)/sbin
LIBEXECDIR = $(PREFIX)/libexec
UNITDIR = $(PREFIX)/lib/systemd/system
MANDIR = $(PREFIX)/share/man
DOCDIR = $(PREFIX)/share/doc/mailquota
BASHDIR = $(PREFIX)/share/bash-completion/completions
# where zsh looks: a package of Debian's has a place of its own
ZSHDIR = $(PREFIX)/share/zsh/$(if $(filter /usr,$(PREFIX)),vendor-completions,site-functions)
CONFDIR = /etc/mailquota

.PHONY: all build demo check everything commands edits bodies test refusals smtpd takeover dashboard-tests deb dist package-tests upgrade-tests install clean

all: build

# Proves and compiles every crate that the program stands on (scripts/build.py). With no change since, it does nothing.
build:
	@RT=$(RT) python3 scripts/build.py

# A day over loopback: a server over a file, the filters of two hosts, a limit, a kill, a stop. It ends by itself. Where `make build`
# made no program of the tree as it is, it is of one that is built without proofs, in minutes, and lies elsewhere.
demo:
	@RT=$(RT) python3 scripts/demo.py

# All that needs no proof, in groups side by side; ONLY=NAME is one group. Over the program that `make demo` plays.
test:
	@RT=$(RT) python3 tests/run.py $(ONLY)

# `make test`, then the proofs: docs/GATE.md says what it does. What passed on this machine isn't tried again, but with ANEW=1. The last line is 'N passed, M failed'.
ANEW ?=
check:
	@RT=$(RT) python3 gate/run.py gate $(if $(ANEW),--from-nothing)

# What the gate leaves out, one after the other, and what ran whole over which commit: wants what smtpd, takeover, dashboard-tests, package-tests and upgrade-tests want.
# What passed on this machine over the same files isn't run again, but with ANEW=1.
everything: build
	@RT=$(RT) python3 scripts/everything.py $(if $(ANEW),--anew)

# Each command of CONTRIBUTING and GATE, in a clone that is thrown away; it says which it leaves out, and why. Wants black.
commands:
	@RT=$(RT) python3 tests/prose/commands.py

# The further must-fail edits, which the gate leaves out for its time, over what `make build` proved; ONLY=CRATE a crate's. What passed is kept.
edits: build
	@RT=$(RT) python3 gate/run.py further --built $(if $(ANEW),--from-nothing) $(ONLY)

# Wrong bodies that no contract refuses, each over the case or test that is to fail, in builds without proofs; ONLY=NAME one of them, or a crate's. What passed is kept.
bodies:
	@RT=$(RT) python3 scripts/bodies.py $(if $(ANEW),--from-nothing) $(ONLY)

# The program with one allocation refused, a run for each: Python 3 and cc on Linux with glibc; JOBS=N runs at once.
refusals:
	@test -x $(PROGRAM) || { echo "run 'make build' first" >&2; exit 1; }
	@python3 tests/refusals/run.py $(PROGRAM)

# A real OpenSMTPD from Debian, in namespaces of its own: wants root, debootstrap, iproute2, openssl and python3.
smtpd:
	@test -x $(PROGRAM) || { echo "run 'make build' first" >&2; exit 1; }
	@bash tests/smtpd/run.sh $(PROGRAM)

# Two quota servers and two mail hosts in namespaces, with real smtpds and keepalived, and once over WireGuard: wants what smtpd wants, and /dev/net/tun where
# the kernel has no WireGuard; ROUNDS=N of each event.
takeover:
	@test -x $(PROGRAM) || { echo "run 'make build' first" >&2; exit 1; }
	@bash tests/takeover/run.sh $(PROGRAM) $(ROUNDS)

# The dashboard and the alerts over a day of real servers and filters, by a real Prometheus: wants Debian's prometheus and prometheus-node-exporter. DRAW=1 makes
# docs/dashboard.svg anew.
dashboard-tests:
	@test -x $(PROGRAM) || { echo "run 'make build' first" >&2; exit 1; }
	@python3 tests/dashboard/run.py $(PROGRAM) $(if $(DRAW),--draw)

# A Debian package of the proved program, in dist/: wants debhelper.
deb: build
	@python3 scripts/package.py deb

# The source of this commit, in dist/, with the sums of what lies there: `make deb` in it makes the same program and package.
dist:
	@python3 scripts/package.py dist

# The package in Debian 13, on a server and two mail hosts, by INSTALL's words: wants root, debootstrap, iproute2, openssl and systemd-container.
package-tests: deb
	@bash tests/package/run.sh

# From the package of an earlier release (scripts/release.py) to this one under load, on two quota servers and two mail hosts, and back: wants what
# package-tests wants, and a clone with its history.
upgrade-tests: deb
	@bash tests/upgrade/run.sh

# The texts name the package's places, those of PREFIX=/usr, where smtpd looks for its filters too.
PLACES = -e 's|/usr/sbin/mailquota|$(SBINDIR)/mailquota|g' -e 's|/usr/libexec/|$(LIBEXECDIR)/|g' -e 's|/usr/share/doc/mailquota|$(DOCDIR)|g'
ifneq ($(LIBEXECDIR),/usr/libexec)
PLACES += -e 's|proc-exec "filter-|proc-exec "$(LIBEXECDIR)/opensmtpd/filter-|'
endif

# $(call texts,FILES,MODE,FOLDER): these texts with the places where this installation has them
define texts
	install -d $(DESTDIR)$(3)
	for file in $(1); do sed $(PLACES) $$file >$(DESTDIR)$(3)/$${file##*/} && chmod $(2) $(DESTDIR)$(3)/$${file##*/} || exit 1; done
endef

install:
	@test -x $(PROGRAM) || { echo "run 'make build' first" >&2; exit 1; }
	install -d $(DESTDIR)$(SBINDIR) $(DESTDIR)$(DOCDIR) $(DESTDIR)$(CONFDIR)
	install -m 755 $(PROGRAM) $(DESTDIR)$(SBINDIR)/mailquota
	$(call texts,contrib/mailquota-backup contrib/mailquota-limits contrib/mailquota-recipients,755,$(SBINDIR))
	$(call texts,contrib/await-server contrib/keepalived-check contrib/limit-mails contrib/mail-host-check contrib/wireguard-takeover,755,$(LIBEXECDIR)/mailquota)
	$(call texts,contrib/filter-mailquota contrib/filter-one-spelling,755,$(LIBEXECDIR)/opensmtpd)
	$(call texts,$(wildcard contrib/mailquota*.service),644,$(UNITDIR))
	$(call texts,$(wildcard contrib/*.toml contrib/*.conf contrib/*.json contrib/*.yml) contrib/wireguard-takeover.service,644,$(DOCDIR)/examples)
	$(call texts,$(wildcard man/*.5),644,$(MANDIR)/man5)
	$(call texts,$(wildcard man/*.8),644,$(MANDIR)/man8)
	install -d $(DESTDIR)$(BASHDIR) $(DESTDIR)$(ZSHDIR)
	install -m 644 contrib/mailquota.bash $(DESTDIR)$(BASHDIR)/mailquota
	install -m 644 contrib/_mailquota $(DESTDIR)$(ZSHDIR)
	install -m 644 LICENSE NOTICE CHANGELOG SECURITY.md docs/INSTALL.md docs/OPERATING.md $(DESTDIR)$(DOCDIR)

clean:
	rm -rf crates/*/out dist
