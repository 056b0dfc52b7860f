# The toolchain's command; `rt doc` prints the page to read first.
RT ?= rt
# How many crates are built at the same time. By default scripts/build chooses.
JOBS ?=
BUILD = RT="$(RT)" scripts/build $(if $(JOBS),--jobs $(JOBS))
# For `make explain`: the query of a request, and its collection.
QUERY ?=
COLLECTION ?= parcels
# For `make try`: a path with its query.
REQUEST ?=
# For `make replicas`: how many servers, and members of etcd.
NODES ?= 3
MEMBERS ?= $(NODES)
export QUERY COLLECTION REQUEST

.PHONY: try sample cadastred explain cases early test random check wrong-bodies tests-refuse refused damage bench compare register-file journal office-file serve-file stops host clients proxy import viewer viewer-refuses gateway gateway-refuses replicas cluster cluster-refuses deb clean

# Answers a request over the sample register without a proof, in a few minutes. The request is that of crates/cadastre/stdin, or
# `make try REQUEST='/collections/parcels/items?filter=area+>+400'`.
try:
	@RT="$(RT)" scripts/try_request "$$REQUEST"

# Proves and builds `cadastre` and all crates that it uses, and answers the request in crates/cadastre/stdin. Crates that do not wait
# for each other are proved at the same time.
sample:
	$(BUILD) --below cadastre
	cd crates/cadastre && $(RT) run -- sample < stdin

# Proves and builds `cadastred`, the program for many clients, and prints its usage.
cadastred:
	$(BUILD) --below cadastred
	cd crates/cadastred && $(RT) run -- --help

# Prints how a program of cases finds the page of a query over the sample register: `make explain QUERY='filter=object+%3D+3'`.
explain:
	$(BUILD) --below page_cases
	@cd crates/page_cases && printf 'explain %s?%s\n' "$$COLLECTION" "$$QUERY" | $(RT) run

# Compares documents and stored answers with second implementations and with the crates.
# - Second implementations of the rules check the stored answers of the cases, and the examples of docs/FILTERS.md.
# - What judges the answers of a cluster refuses wrong histories, and its nodes write commands as journals do.
# - The examples of docs/API.md are cases of the server. The cases of commands under joined names are counted.
# - The functions of docs/FILTERS.md write texts that the filters read. The exporter says what docs/OFFICE.md says.
# - Each script that is called wrongly prints its usage. scripts/why names who has what a service needs.
# - docs/PROMISES.md and docs/READING.md have the numbers of the crates. The tables of docs/ARCHITECTURE.md name the files of definitions.
# - Names in the code use the words of docs/ARCHITECTURE.md. Lists of collections are complete.
# - The sentences of documents and scripts are within the bounds of docs/STYLE.md.
cases:
	scripts/check_filter_cases
	scripts/check_further_cases
	scripts/check_server_cases
	scripts/check_changes_cases
	scripts/check_clients_cases
	scripts/check_orders
	scripts/check_node_lines
	scripts/check_api_examples
	scripts/check_quoting
	scripts/check_help
	scripts/check_usage
	scripts/check_why
	scripts/count_promises
	scripts/count_reading
	scripts/check_words
	scripts/check_definitions
	scripts/check_collections
	scripts/check_prose

# What the gate does before it proves anything. It takes a minute, and is run before each commit.
early: cases
	scripts/check_format
	scripts/check_wrong_bodies
	scripts/crate_rows --check
	scripts/chain
	scripts/check_build

# The whole gate. It runs:
# - `make early`, every proof from nothing, the must-fail edits, and the tests;
# - those tests again over three wrong bodies, which always report out of memory, a refusal of the database, or a failed read: one must fail;
# - each program, as two compilers build it;
# - the server's cases in pieces of bounded work, with the next line between the beginning and the end of each response;
# - each request for features of the cases at every revision of its register;
# - both programs on files of the office, at an address, and at the office's socket;
# - the office with a stop at each call of its files, and a database that is refused memory.
test: early
	$(RT) ci
	scripts/tests_refuse cad_desk/always_want_of_memory cad_register/always_refused_by_the_database cad_serve/every_read_fails
	scripts/check_pieces
	scripts/check_changes
	scripts/check_revisions
	scripts/check_office
	scripts/check_old_register
	scripts/check_journal 3
	scripts/check_backup 3
	scripts/check_damage
	scripts/check_serve
	scripts/check_stops
	scripts/refused 500
	scripts/check_host
	scripts/check_status
	scripts/check_past

# Sends COUNT filters, drawn at random by SEED, to the programs of cases and to the second implementations.
random:
	cd crates/cql_cases && $(RT) run < stdin | cmp - stdout
	cd crates/page_cases && $(RT) run < stdin | cmp - stdout
	scripts/check_random_filters $(SEED) $(COUNT)

# Checks every crate, using what earlier checks kept.
check:
	$(BUILD)

# Checks that the prover refuses each wrong body: those that the gate tries, and those in wrong-bodies/. SAMPLE and SEED choose some of them.
wrong-bodies: check
	SAMPLE=$(SAMPLE) SEED=$(SEED) scripts/wrong_bodies

# Checks that tests and cases refuse the wrong bodies in wrong-for-tests/, which no contract can refuse.
tests-refuse:
	scripts/tests_refuse

# Runs the case programs again and again, and refuses another growth of memory each time. Needs a C compiler.
refused:
	cd crates/cql_cases && $(RT) run < stdin | cmp - stdout
	cd crates/cad_cases && $(RT) run < stdin | cmp - stdout
	cd crates/cad_register_cases && $(RT) run < stdin | cmp - stdout
	scripts/refused

# Breaks each rule of a stored row by Python's SQLite, and checks that the program reports it. Servers listen over such a file.
damage: sample cadastred
	scripts/check_damage

# Measures commands a second in memory and in a file, the time of pages, and requests a second of both programs.
bench: sample cadastred
	scripts/measure cad_bench 100
	scripts/measure cad_page_bench
	scripts/bench
	scripts/bench_serve
	scripts/bench_host
	scripts/bench_changes
	scripts/bench_past

# Asks the same questions of `cadastred`, PostGIS and SpatiaLite over counties of 10,000 and 100,000 parcels, and prints the times.
# Needs postgresql-15-postgis-3, libsqlite3-mod-spatialite and python3-psycopg2.
compare: sample cadastred
	scripts/compare

# Checks a file that the program wrote by the real sqlite3.
register-file: sample
	scripts/check_register_file

# Prints the journal of a village's register, enters it into a new file, and compares the pages of both files. Copies a register while it is
# served, and checks that files with another past stay as they are.
journal: sample cadastred
	scripts/check_journal
	scripts/check_backup

# Runs `cadastre office` and `cadastre ask` on new, existing and foreign files, and on one that an older program wrote.
office-file: sample
	scripts/check_office
	scripts/check_old_register

# Runs `cadastre serve` on a file of the office, with clients, and with wrong arguments, files and addresses.
serve-file: sample
	scripts/check_serve

# Stops the office at each call of its files, and walks through pages over a restart of `cadastred`. Needs a C compiler, or the toolchain's.
stops: sample cadastred
	scripts/check_stops

# Runs `cadastred` on a new register, in about two minutes. Sixty clients connect at once, some of them odd. The office enters commands
# between the pages of walks. The program is killed and stopped. Its status is compared with what a script counts, and the exporter with both.
host: cadastred
	scripts/check_host
	scripts/check_status

# Reads a register of 2,000 parcels by curl, GDAL and OWSLib from `cadastred` and from `cadastre serve`.
clients: sample cadastred
	scripts/check_clients

# Passes a register through GDAL and scripts/import and back, and checks the reports of sources with faults. Needs python3-gdal and gdal-bin.
import: sample cadastred
	scripts/check_import

# Runs nginx with the snippet of docs/OPERATIONS.md in front of `cadastred` and of `cadastre serve`. systemd verifies the units of that page.
# Then it runs nginx with the snippet of docs/GATEWAY.md, where parcels and units are open to all, and parties and rights ask for a password.
proxy: sample cadastred
	scripts/check_proxy
	scripts/check_gateway nginx

# Opens viewer/ in headless Chromium, behind nginx and `cadastred`, on a village and on 100,000 parcels, and compares what it shows with
# the register. Cites it in a hundred random states, and compares with what the server answers to what was cited.
# PICTURES names a folder for pictures of both, and for the printed sheet. Needs chromium, nginx-light and openssl.
viewer: sample cadastred
	scripts/check_viewer $(PICTURES)
	scripts/check_citations
	scripts/check_viewer_many $(PICTURES)

# Checks that the citations of wrong pages are refused, those of wrong-viewers/. It takes some minutes. Needs the same.
viewer-refuses: sample cadastred
	scripts/viewer_refuses

# Reads a village through the gateway by QGIS, GDAL, OWSLib and plain requests, while the office writes, and looks at a drawn map. PARTS
# names some of its parts (scripts/check_gateway). docs/GATEWAY.md names the packages that it needs.
gateway: sample cadastred
	scripts/check_gateway $(PARTS)

# Checks that `make gateway` refuses each wrong edit of the gateway in gateway/wrong/.
gateway-refuses: sample cadastred
	scripts/gateway_refuses

# Runs NODES servers of one register on this machine, with MEMBERS of etcd, HAProxy and nginx, until an interrupt. docs/CLUSTER.md shows what
# to do with them. Needs etcd-server, etcd-client, haproxy, nginx-light and python3-etcd3.
replicas: cadastred
	scripts/start_cluster .build/replicas $(NODES) $(MEMBERS)

# Runs the commands of docs/CLUSTER.md on such nodes. Then it strikes three nodes for MINUTES while offices enter at all of them and readers walk
# through the balancers. SEED draws the blows. Needs the same.
cluster: cadastred
	scripts/check_replicas
	scripts/check_cluster

# Checks that `make cluster` refuses each wrong edit of `cadastre-node` in cluster/wrong/. It takes about a minute for each.
cluster-refuses: cadastred
	scripts/cluster_refuses

# Puts the programs into Debian packages and checks them. If root runs it, it also installs, uses and removes the packages. Needs debhelper
# and lintian.
deb: sample cadastred
	scripts/package

clean:
	rm -rf crates/*/out packaging/out .build
