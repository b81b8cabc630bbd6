# The program goes to bin/logstash. Proving all that it stands on takes some three quarters of an hour the first time,
# and seconds after that.

PROGRAM = crates/logstash_cli
RUNS = 'input { stdin {} } output { stdout {} }'

.PHONY: all test try bench planted clean

# Proves the program and builds it.
all:
	data=$$(mktemp -d) && cd $(PROGRAM) && rt run -- -e $(RUNS) --path.data "$$data" </dev/null; status=$$?; rm -rf "$$data"; exit $$status
	mkdir -p bin
	cp $(PROGRAM)/out/logstash_cli bin/logstash

# Proves everything from nothing, tries the edits that must be refused, and runs every test and program.
test:
	bash .ci/run

# The quickest build and run, which proves nothing: for development.
try:
	data=$$(mktemp -d) && cd $(PROGRAM) && printf 'hello\n' | rt try -- -e $(RUNS) --path.data "$$data"; status=$$?; rm -rf "$$data"; exit $$status

# Sees that the prover refuses the planted bugs of some crates: make planted CRATES="queue_core queue_files"
planted:
	bash planted/run $(CRATES)

# How fast the program and its parts are, beside others on the same machine.
bench: all
	bash bench/lines.sh
	bash bench/pipelines.sh
	bash bench/events.sh
	bash bench/elements.sh
	bash bench/json_lines.sh
	bash bench/crc.sh
	bash bench/patterns.sh
	bash bench/parse.sh
	bash bench/conditions.sh
	bash bench/filters.sh
	bash bench/parsing.sh
	bash bench/growth.sh
	bash bench/store.sh
	bash bench/page.sh
	bash bench/outputs.sh
	bash bench/letters.sh
	bash bench/folder.sh
	bash bench/threads.sh
	bash bench/runs.sh
	status=0; for it in bulk inputs queue tools graphs; do bash bench/$$it.sh || status=1; done; exit $$status

clean:
	rm -rf bin crates/*/out
