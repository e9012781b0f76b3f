# The commands of this repository. `rt` is Rattle's command, on the PATH of a machine that has the kit.

.PHONY: run demo install deb test rounds prove tools proofs rows inputs start cluster bench

# Where `make install` puts what, and `make deb` its package.
PREFIX ?= /usr/local
DESTDIR ?=
packages = out

program = crates/cluster_proxy/out/cluster_proxy
sources = crates.txt $(shell find crates -name out -prune -o -name '*.rt' -print -o -name '*.antt' -print)

# Builds the program, proofs first, and starts the whole example: three nodes and the proxy before them. Ctrl-C ends it.
run: $(program)
	@examples/run

$(program): $(sources)
	@build/prove cluster_proxy

# Shows the proxy before a real cluster under load, while slots move and a primary is lost.
demo: $(program)
	@demo/run

# The program, its manual page and its unit for systemd; and a Debian package of these.
install: $(program)
	@package/install $(program) "$(DESTDIR)" "$(PREFIX)"

deb: $(program)
	@PROXY=$(program) package/deb $(packages)

# The gate: every proof from nothing, every test and program, and the edits that must be refused, while the rounds of these and
# build/prove are tried on small repositories, since the first crates are proved one after the other; then, by that build, the program
# on whole inputs, beside rows of the layers, the example and a real cluster.
test:
	@$(MAKE) --no-print-directory --jobs=2 proofs tools rounds prove
	@$(MAKE) --no-print-directory --jobs=2 inputs cluster start rows
	@tests/edits/run --took

tools:
	-tests/real/install redis-server redis-cli promtool curl

rounds:
	tests/edits/run --itself

prove:
	tests/start/run test_prove

proofs:
	tests/edits/run

inputs:
	tests/program/run

start:
	tests/start/run test_demo test_package

# (Behind one another: what is timed before a real cluster has one other test beside it, not two.)
cluster:
	examples/run --once
	tests/real/run

rows:
	tests/rows/run

# Measures the program beside one server and beside another proxy.
bench:
	bench/run
