# `make check` checks all that the tools on this machine can check, several steps at a time, and
# says at the end what it left out and which tool that needs. `make NAME` runs one step. With Rattle's
# kit, `.ci/run` also proves everything.
MAKEFLAGS += --no-print-directory
.ONESHELL:
SHELL := bash
.SHELLFLAGS := -Eeuo pipefail -c
export CARGO_TARGET_DIR ?= $(CURDIR)/target
PYTHON := $(shell for it in python3 /usr/bin/python3; do $$it -c 'import z3' 2>/dev/null && echo $$it && exit; done)
# The gate compares later, with what it proves.
MIR := python3 tools/mir
FETCHED := $(if $(FONT_TYPES_DIR),--offline --config 'patch.crates-io.font-types.path="$(FONT_TYPES_DIR)"')

# A file for what a step prints. /dev/stderr may be of another user, whom su or sudo left.
log = log=$$(mktemp); trap 'rm "$$log"' EXIT

STEPS := c rust pages lints workspaces tools smt smt-checked mir compare compared
.PHONY: check $(STEPS)

check:
	@$(log)
	status=0; $(MAKE) -kO -j"$$(nproc)" $(STEPS) 2>&1 | tee "$$log" || status=1
	sed -n 's/^left out: //p' "$$log" | sort -u | paste -sd ';' | sed 's/;/; /g; s/^$$/nothing/; s/^/left out: /'
	exit $$status

# Ends a step if a tool is missing, and says so. A step runs as if make did not run it.
with = @unset MAKEFLAGS MFLAGS MAKELEVEL; missing=$$(for it in $(1); do command -v $$it >/dev/null || echo $$it; done | paste -sd ' ')
with += ; [[ -z $$missing ]] || { echo "left out: $@, which needs $$missing"; exit 0; }

# Ends a step in files that are no clone, as those of an archive, also inside of another clone. If git
# refuses a clone, as it does where another user owns it, git's reason is shown.
cloned = [[ -z $$(git rev-parse --show-cdup 2>&1) ]] || { [[ ! -e .git ]] || git rev-parse 2>&1 || true;
cloned += echo "left out: $@, which needs a clone by git"; exit 0; }

rust:
	$(call with,cargo cc rustdoc)
	cargo test --quiet
	cargo test --quiet --release --test program --test original --test preconditions
	cargo test --quiet --manifest-path variations/Cargo.toml

pages:
	$(call with,cargo cc rustdoc)
	export RUSTDOCFLAGS=-Dwarnings
	rm -rf "$$CARGO_TARGET_DIR/doc"
	for it in . variations; do cargo doc --quiet --no-deps --manifest-path $$it/Cargo.toml; done
	# Two pages whose paths differ by case alone are one on macOS and Windows.
	same=$$(cd "$$CARGO_TARGET_DIR/doc" && find . | sort -f | uniq -Di)
	[[ -z $$same ]] || { echo "$$same"; exit 1; }
	cargo build --quiet
	rustdoc --edition=2024 --test README.md -L "$$CARGO_TARGET_DIR/debug/deps" \
		--extern font_types_proved="$$CARGO_TARGET_DIR/debug/libfont_types_proved.rlib"

lints:
	$(call with,cargo cargo-clippy rustfmt)
	for it in . variations; do
		cargo clippy --quiet --all-targets --manifest-path $$it/Cargo.toml -- -D warnings
	done
	for it in . c compare variations; do cargo fmt --check --manifest-path $$it/Cargo.toml; done

workspaces:
	$(call with,cargo cc git)
	$(cloned)
	tests/workspaces

tools:
	$(call with,cargo cc git python3 rustdoc rustfmt)
	$(cloned)
	$(if $(PYTHON),,echo "left out: a part of tools, which needs python3-z3")
	$(log)
	python3 -B -m unittest discover -q tools/tests -p '*.py' 2>&1 | tee "$$log"
	told="Ran $$(cat tools/tests/*.py | grep -c '^    def test_') tests in .*|OK$(if $(PYTHON),,.*)"
	[[ $$(grep -cxE "$$told" "$$log") == 2 ]]

# What these two print has a line for each function, which is left out here. They use all processors
# until they end, so the others, which end on one, go first.
smt smt-checked:
	$(call with,rustc cc $(if $(PYTHON),,python3-z3))
	nice $(PYTHON) tools/smt $(filter --checked,$(@:smt%=-%)) | sed '/ proved$$/d'

mir:
	$(call with,cargo cc git python3)
	$(MIR)

c:
	$(call with,cargo make cc c++ pkg-config nm readelf ldd)
	$(log)
	c/check | tee "$$log"
	grep -x 'the library for C: all calls are right' "$$log" >/dev/null

# Fetches font-types, or ends a step.
fetched = cargo fetch --quiet --manifest-path compare/Cargo.toml $(FETCHED) ||
fetched += { echo "left out: $@, which needs font-types, which cargo cannot fetch"; exit 0; }

compare:
	$(call with,cargo cc rustdoc)
	$(fetched)
	cargo test --quiet --release --manifest-path compare/Cargo.toml $(FETCHED)

# The tests that `compare` runs call each function of font-types.
compared:
	$(call with,cargo cc python3 rustdoc objdump c++filt)
	$(fetched)
	compare/compared $(FETCHED)
