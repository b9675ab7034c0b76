# make show: the main job on an example. make test: the gate. make numbers: what each number of refusal means.
# make compare N=.. SEED=..: random calls against the second program. make seeded: faults that the comparison must find.
.PHONY: show test numbers compare seeded programs kit cargo

N ?= 20000
SEED ?= 1

show: kit
	@echo "proving rmvshow and what it stands on; on a fresh clone that takes some minutes"
	@scripts/build rmvshow
	@echo "\$$ scripts/run rmvshow < samples/turn.rmv"
	@scripts/run rmvshow < samples/turn.rmv

test:
	@bash .ci/run

# README's table of numbers, as plain lines.
numbers:
	@sed -nE 's/^\| ([0-9]+) \| (.*) \|$$/\1 \2/p' README.md | grep . || { echo "README.md has no table of numbers."; exit 1; }

compare: cargo programs
	@scripts/compare $(N) $(SEED)

seeded: cargo programs
	@second/seeded scripts/run

programs: kit
	@echo "proving rmvshow, rmvlist, rmvpixel, rmvcalls and what they stand on"
	@scripts/build rmvshow rmvlist rmvpixel rmvcalls

kit:
	@command -v rt >/dev/null 2>&1 || { \
	  echo "The Rattle kit is missing: there is no command 'rt' on the PATH."; \
	  echo "README.md, \"What a machine needs\", says which kits this repository is checked with."; \
	  exit 1; }
	@grep -qxF "    $$(rt version)" README.md || \
	  echo "The repository is checked with other kits, and results may differ: this is '$$(rt version)'. README.md names them."

cargo:
	@command -v cargo >/dev/null 2>&1 || { echo "Rust is missing: there is no command 'cargo' on the PATH."; exit 1; }
