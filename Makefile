# make: proves and builds the program with all processors, and puts the gateway's capture through the gateway's profile.
# make demo: compiles the program without its proofs and does the same, in some 40 seconds.
# PROFILE=examples/metered.profile behind either: the gateway with meters.
# make install PREFIX=DIR: puts the built program at DIR/bin/qos.
# make bench: how fast the built program is on a million packets, beside plain copies.

PROGRAM = crates/qos/out/qos
PREFIX = /usr/local

IN = examples/gateway.pcap
PROFILE = examples/gateway.profile
OUT = demo/gateway
WORDS = run --profile "$(CURDIR)/$(PROFILE)" --out "$(CURDIR)/$(OUT)" "$(CURDIR)/$(IN)"
SUMMARY = python3 -B examples/summary.py $(IN) $(OUT) $(PROFILE)

# The crates that the program stands on, from crates.txt: each is proved once those below it are, side by side.
crates_below = $(if $(1),$(1) $(call crates_below,$(foreach crate,$(1),$(filter $(CRATES),$(BELOW_$(crate))))))
CRATES := $(shell sed -n 's/^\([a-z0-9_]\{1,\}\).*:.*/\1/p' crates.txt)
$(foreach crate,$(CRATES),$(eval BELOW_$(crate) := $(shell sed -n 's/^$(crate)\>[^:]*://p' crates.txt)))
LIBRARIES := $(filter-out qos,$(sort $(call crates_below,qos)))

.PHONY: all libraries demo bench install $(LIBRARIES)

all:
	@echo "Proving and building the program (logs: crates/NAME/out/make.log). The first time takes a while."
	@$(MAKE) --no-print-directory --jobs=$$(nproc) libraries
	@mkdir -p demo crates/qos/out
	@rm -f $(OUT).*.pcap
	@cd crates/qos && rt run -- $(WORDS) 2>out/make.log \
	  || { tail -n 20 out/make.log; exit 1; }
	@echo "The program is $(PROGRAM); above is its report. It wrote" $(OUT).*.pcap
	@echo "By class and subscriber (examples/summary.py):"
	@echo
	@$(SUMMARY)

$(foreach crate,$(LIBRARIES),$(eval $(crate): $(filter $(CRATES),$(BELOW_$(crate)))))
libraries: $(LIBRARIES)

$(LIBRARIES):
	@mkdir -p crates/$@/out
	@cd crates/$@ && rt lib >out/make.log 2>&1 || { tail -n 20 out/make.log; exit 1; }
	@echo "$@ is proved."

demo:
	@mkdir -p demo
	@rm -f $(OUT).*.pcap
	@echo "Compiling the program without its proofs (make builds it with them), and then:"
	@echo "qos run --profile $(PROFILE) --out $(OUT) $(IN)"
	@echo
	@cd crates/qos && rt try --seconds 300 -- $(WORDS) 2>"$(CURDIR)/demo/try.log" \
	  || { tail -n 20 "$(CURDIR)/demo/try.log"; exit 1; }
	@echo
	@echo "Above is its report. It wrote" $(OUT).*.pcap
	@echo "By class and subscriber (examples/summary.py):"
	@echo
	@$(SUMMARY)

bench: all
	@python3 -B bench/bench.py $(PROGRAM)

install:
	install -D -m 755 $(PROGRAM) $(DESTDIR)$(PREFIX)/bin/qos
