"""docs/BENCHMARKS.md and README's figures, as they follow from what bench/report.py measured."""
import re

MEBIBYTE = 1 << 20
BEGIN = "<!-- The lines up to the next mark are written by bench/report.py. -->"
END = "<!-- The end of what bench/report.py writes. -->"
NONE = "not measured"
WIDTH = 150


def rounded(number):
    """Three digits, or all that stand before the point."""
    for digits, most in ((2, 10), (1, 100)):
        if abs(number) < most:
            return f"{number:.{digits}f}"
    return f"{number:,.0f}"


def bytes_of(length):
    return f"{length // MEBIBYTE} MiB" if length % MEBIBYTE == 0 else f"{length:,} bytes"


def table(head, rows):
    lines = ["| " + " | ".join(map(str, line)) + " |" for line in (head, *rows)]
    lines.insert(1, "|" + "---|" * len(head))
    return "\n".join(line.replace("|  |", "| |").replace("|  |", "| |") for line in lines)


def filled(words):
    """A paragraph in lines of one width."""
    lines, line = [], ""
    for word in words.split():
        if line and len(line) + 1 + len(word) > WIDTH:
            lines.append(line)
            line = word
        else:
            line = f"{line} {word}".strip()
    return "\n".join([*lines, line])


def plot(name, title):
    return f"![{title}](plots/{name}.svg)"


def implementation(head):
    """The name of simdjson's implementation at the head of a column."""
    return re.sub(r"^simdjson |, GB/s$", "", head)


def share(words, numbers, digits=2):
    least, most = f"{min(numbers):.{digits}f}", f"{max(numbers):.{digits}f}"
    return words.format(least if least == most else f"{least} to {most}")


# ---- what users ask: each function takes the result of a part

def connections(it):
    rows = it["rows"]
    rates = [[f"{count:,}", *(rounded(by[name][0]) if name in by else NONE for name in ("path_server", "Redis", "loop in C")),
              f"{by['path_server'][0] / by['loop in C'][0]:.2f}"] for count, by in rows]
    times = [[f"{count:,}", *(rounded(by[name][at]) if name in by else NONE for name in ("path_server", "Redis") for at in (1, 2))] for count, by in rows]
    yield plot("connections", "Requests a second and times of a request, by connections")
    yield filled("Each connection has one request on its way: a GET of a document that is not there. Server and load have a thread each. The loop in C is an "
                 "epoll loop that reads the same frames and answers each with the same 9 bytes.")
    yield table(["connections", "path_server, a second", "Redis, a second", "loop in C, a second", "path_server over the loop"], rates)
    yield "The times of these requests in microseconds: the median, and the time that 99 of 100 do not pass."
    yield table(["connections", "path_server, median", "path_server, 99 of 100", "Redis, median", "Redis, 99 of 100"], times)
    idle, announced = it["idle"].values()
    yield filled(f"An idle connection takes {idle:.0f} bytes in the process, apart from the memory of the system. One that announces the longest request and sends "
                 f"nothing takes {announced:.0f}.")


def rounds(it):
    redis, postgres = dict(it["redis"]), dict(it["postgres"])
    of_redis = {"PUT of 1 MiB, one string": redis.get("SET of 1 MiB"), **redis}
    rows = []
    for title, _, server, echo in it["echo"]:
        theirs, mean = of_redis.get(title), postgres.get(title)
        rows.append([title, rounded(server[0]), rounded(theirs[0]) if theirs else "", rounded(mean) if mean else "", rounded(echo[0])])
    yield filled("One connection sends a request and reads its reply before it sends the next. Medians in microseconds; of PostgreSQL the mean, as pgbench prints it. "
                 "The echo in C reads 65,536 bytes at most and writes them back; it gets as many bytes as the longer of request and reply.")
    yield table(["request", "path_server", "Redis", "PostgreSQL", "echo in C"], rows)
    yield filled("A put reads and checks the whole text; Redis' SET keeps the bytes as they are. RedisJSON is not in Debian and was not measured.")


def queries(it):
    rows, tools = it["rows"], ("path_server", "jq", "gojq", "sqlite3", "python")
    shown = [row for row in rows if row[0] != 10_000] if len(rows) == 5 else rows

    def of(column, measure):
        return [[tool, *(measure(by[tool][column]) if tool in by else NONE for _, _, by in shown)] for tool in tools]

    lengths = [bytes_of(length) for length, _, _ in shown]
    yield plot("queries", "Time of one query, by size of the text")
    yield filled("The query `$.items[?@.price<10].name` on texts of small orders, of which a tenth is a hit. From the shell a process starts, reads the text and prints the "
                 "names. The median in milliseconds:")
    yield table(["program", *lengths], of(0, lambda seconds: rounded(seconds * 1000)))
    yield "The greatest resident memory of such a process, in MiB:"
    yield table(["program", *lengths], of(1, lambda resident: rounded(resident / MEBIBYTE)))
    yield filled("On a server the text is stored already. One connection asks and reads all hits, in microseconds. PostgreSQL evaluates the same path on a column of `jsonb`.")
    yield table(["text", "path_server, median", "PostgreSQL, mean"],
                [[bytes_of(length), rounded(ours), rounded(theirs) if theirs else NONE] for length, ours, theirs in it["served"]])


def by_documents(it):
    yield plot("memory", "Resident memory, by documents")
    yield filled("How much the resident memory of the process grows with these documents, a thousand a tenant. Redis keeps the same texts as strings, so it can return "
                 "them and cannot query them.")
    yield table(["documents", "bytes of each", "path_server, MiB", "Redis, MiB", "path_server, bytes a document"],
                [[f"{count:,}", f"{length:,}", rounded(ours / MEBIBYTE), rounded(theirs / MEBIBYTE) if theirs else NONE, f"{ours / count:,.0f}"]
                 for length, count, ours, theirs in it["rows"]])


def reading(it):
    head, *rows = it["files"]
    best = implementation(head[3])
    yield plot("reading", "Reading speed, by file")
    yield filled("A text is read into a document that queries can use, and all of RFC 8259 is checked, repeated names included. simdjson's DOM parser converts numbers, "
                 "and looks for no repeated name. " + of_files(row[0] for row in rows) + "Gigabytes a second, the best of 200 rounds:")
    yield table(["file", "path_server", "simdjson, SSE4.2", f"simdjson, {best}", "ratio to SSE4.2"],
                [[f"{row[0]}, {it['bytes'][row[0]]:,} bytes", *row[1:]] for row in rows])
    yield filled("path_server is built for SSE4.2. " + share("Python's json reads at {} gigabytes a second.", list(it["python"].values())))


def of_files(names):
    return "The files are the usual ones of JSON benchmarks, cut to 1 MiB; `orders_1m.json` is made. " if len(list(names)) > 1 else "The file is made, of small orders. "


def beside(it):
    by_name = {}
    for name, count, (_, median, late) in it["rows"]:
        by_name.setdefault(name, {})[count] = (median, late)
    yield plot("beside", "Times of a small request beside other tenants' work")
    yield filled("How long 1 and 100 connections wait for a small GET, while other connections do what the first column says. The query is "
                 "`$[?@.price<10&&@.stock>250].id` on 29,500 objects. In microseconds: the median, and the time that 99 of 100 do not pass.")
    yield table(["beside", "1: median", "1: 99 of 100", "100: median", "100: 99 of 100"],
                [[name, *(rounded(them[count][at]) for count in (1, 100) for at in (0, 1))] for name, them in by_name.items()])


# ---- building and checking

TOOLS = ("tests/fitting.py", "tests/trying.py", "tests/quick_rt.py", "tests/scheduling.py", "tests/building.py", "tests/definitions.py", "tests/recorded_times.py",
         "bin/edits fit", "bin/check-layout", "bin/definitions")
OF_GATE = {"rt ci": "`rt ci`: proofs from nothing, two compilers, tests of the crates", "bin/edits try must-fail": "`bin/edits try must-fail`, beside it: wrong bodies are refused"}


def minutes(seconds):
    return f"{seconds / 60:.1f}" if seconds < 600 else f"{seconds / 60:.0f}"


def building(figures):
    """What the first calls and the gate take. It has three parts, which are recorded apart."""
    first, built, gate = (of(figures, name) for name in ("unproved", "build", "gate"))
    crates = f"{built['crates']} crates" if built else "all crates"
    rows = [("both programs without a proof, as the first call makes them", first),
            (f"`bin/build`{on_processors(figures, 'build')}: {crates} proved, both programs compiled", built),
            (f"`bin/check`{on_processors(figures, 'gate')}: the whole gate", gate and {"wall": gate["wall"], "processor": sum(it[2] for it in gate["parts"])})]
    yield filled("How long a first call takes, the proof that goes on after it, and the gate. All start from nothing. Processor minutes are those of all processors together.")
    yield table(["what", "minutes", "processor minutes"], [[what, *((minutes(it["wall"]), minutes(it["processor"])) if it else (NONE, NONE))] for what, it in rows])
    for command, name in (("bin/build", "build"), ("bin/check", "gate")):
        if name in figures["parts"]:
            yield filled("`{0}` was measured apart from the rest: of commit {commit} on {machine}.".format(command, **figures["parts"][name]))
    if gate:
        yield "The parts of the gate:"
        yield table(["part", "minutes", "processor minutes", "passed", "failed"], list(of_gate(gate["parts"])))
        if gate["kept"]:
            yield f"The proofs of {gate['kept']} crates were kept from an earlier run."


def on_processors(figures, name):
    it = figures["parts"].get(name, {})
    return f" on {it['processors']} processors" if "processors" in it else ""


def of_gate(parts):
    groups = {}
    for name, *counts in parts:
        title = OF_GATE.get(name) or ("the tools of `bin/`, and their tests" if name.startswith(TOOLS) else "the scripts of `tests/` and `clients/`")
        groups.setdefault(title, []).append(counts)
    for title, found in groups.items():
        wall, processor, passed, failed = map(sum, zip(*found))
        yield [title, minutes(wall), minutes(processor), f"{passed:,}", failed]


# ---- the inside

BAR = 60
STEPS = {"S": "system, network, client", "L": "loop and hub", "F": "frames", "T": "store"}


def requests_by_steps(figures):
    """Small requests and a put, each with the microseconds of its steps in the order of STEPS. The system's are those of the loop or the echo in C, which
    look nothing up; those of frames and store, for a tenant with one document, are measured without sockets; loop and hub have the rest."""
    echo = {title: (length, ours[0], theirs[0]) for title, length, ours, theirs in of(figures, "rounds")["echo"]}
    crowd = dict(of(figures, "connections")["rows"])[100]
    # of several rows with one name the first, which is that of one document
    commands, texts, _ = ({row[0]: row for row in reversed(rows)} for rows in of(figures, "store")["tables"])
    _, small, large = ({(row[0], row[1]): row for row in rows} for rows in of(figures, "hub")["tables"])
    frame = float(next(row[3] for (length, _), row in small.items() if length == "30 bytes")) / 1000
    byte = float(large["524288 bytes", "65536 bytes"][2]) / 1000
    get, ask, put = "GET of 13 bytes", "QUERY `$.a[1]` on 13 bytes", "PUT of 1 MiB, one string"
    stored = {get: float(commands["get"][2]), ask: float(commands["query `$.a[1]`"][2]), put: float(texts["one string, 1 MiB"][1])}
    rows = {"GET of 100 connections": (1e6 / crowd["path_server"][0], 1e6 / crowd["loop in C"][0], frame, stored[get])}
    rows.update({title: (echo[title][1], echo[title][2], echo[title][0] * byte if title == put else frame, stored[title]) for title in (get, ask, put)})
    return {title: (system, all_of_it - system - frames - store, frames, store) for title, (all_of_it, system, frames, store) in rows.items()}


def bar(steps):
    """The letters of the steps, each as often as its part of BAR says."""
    ends = [round(BAR * sum(steps[:at]) / sum(steps)) for at in range(len(steps) + 1)]
    return "".join(letter * max(end - begin, 0) for letter, begin, end in zip(STEPS, ends, ends[1:]))


def steps(figures):
    parts = {name: of(figures, name) for name in ("connections", "rounds", "store", "hub")}
    if not all(parts.values()) or 100 not in dict(parts["connections"]["rows"]):
        yield "Not measured: it takes the parts connections, rounds, store and hub."
        return
    found = requests_by_steps(figures)
    yield filled("The steps of a request, by the tables of this page: the first of `listen`, the others of `serve`, which has one connection at a time. The system, the "
                 "network and the client take as long as with the loop or the echo in C. Frames and store are measured without sockets. Loop and hub have the rest. It is a "
                 "difference, and no more exact than the tables are.")
    width = max(map(len, found))
    yield "\n".join(f"    {title.replace('`', ''):{width}}  {bar(it)}" for title, it in found.items())
    yield filled("Each line is all of a request: " + ", ".join(f"{letter} {name}" for letter, name in STEPS.items()) + ". In microseconds:")
    yield table(["step", *found], [[name, *(rounded(it[at]) for it in found.values())] for at, name in enumerate(STEPS.values())]
                + [["all", *(rounded(sum(it)) for it in found.values())]])


def shapes(it):
    yield filled("The time to read a text of one shape, and of one with four times as many parts. The last column is the second time over the first: 4 is linear. "
                 "The longer texts have some 4 MiB.")
    yield table(*of_rows(it["shapes"]))


def of_rows(rows):
    """A printed table, with commas in its large numbers."""
    return rows[0], [[with_commas(cell) for cell in row] for row in rows[1:]]


def with_commas(cell):
    parts = cell.split("`")
    return "`".join(part if at % 2 else re.sub(r"(?<![.\w])\d{4,}\b", lambda it: f"{int(it[0]):,}", part) for at, part in enumerate(parts))


def index(it):
    (head, *rows), = it["tables"]
    yield filled("The first step of reading, which finds the places of a text's tokens, beside stage 1 of simdjson. Gigabytes a second, the best of 300 rounds:")
    yield table(["file", "path_server", "simdjson, SSE4.2", f"simdjson, {implementation(head[6])}", "ratio to SSE4.2"],
                [[row[0], row[3], row[4], row[6], row[5]] for row in rows])


def compiled(it):
    of_queries, of_numbers = it["tables"]
    yield filled("The time to compile a query, and to evaluate it on a text that is read already, without paths and output. The text has 1 MiB, where no other is named.")
    yield table(*of_rows(of_queries))
    yield "The time to compare two numbers by their exact decimal values:"
    yield table(*of_rows(of_numbers))


def store(it):
    of_commands, of_texts, of_documents = it["tables"]
    yield filled("The time of a tenant's commands on a collection of equal texts, without frames and sockets, and how often each allocates memory.")
    yield table(*of_rows(of_commands))
    yield "Nearly all of the time of a put goes into reading the text:"
    yield table(*of_rows(of_texts))
    yield "The memory that the process takes for one more document:"
    yield table(*of_rows(of_documents))


def hub(it):
    of_requests, small, large = it["tables"]
    yield filled("The time of a request from its frame to its reply, without sockets, for a tenant with one document of 23 bytes. The frames come alone, or a thousand "
                 "in a piece.")
    yield table(*of_rows(of_requests))
    yield filled("The time to split a stream into its frames, if it comes in pieces of one length. First a million frames of 30 bytes:")
    yield table(*of_rows(small))
    yield "Then frames with long bodies:"
    yield table(*of_rows(large))


def hostile(it):
    rows = it["rows"]
    above = [row for row in rows if row[4]]
    dearest = sorted(rows, key=lambda row: row[2] / row[3], reverse=True)[:12]
    yield filled(f"Texts of 1 MiB and queries of 4,096 bytes that were made to take long, with a stack of 256 KiB: {len(rows)} cases of `bench/hostile.py`. "
                 "The aim is 1 s of processor time, or 1.5 s for a cost of nearly 10,000,000 units. A case is stopped after 5 s. "
                 f"{len(above) or 'None'} of them missed the aim. The slowest:")
    yield table(["shape", "how it ended", "seconds", "aim"], [[name.replace("|", "\\|"), end, f"{taken:.2f}", aim] for name, end, taken, aim, _ in dearest])


SECTIONS = {"connections": ("Requests a second", connections), "rounds": ("One request at a time", rounds),
            "queries": ("A query, by size of the text", queries), "memory": ("Memory, by documents", by_documents),
            "beside": ("Beside other tenants' work", beside), "reading": ("Reading, by file", reading)}
INSIDE = {"index": ("The index of tokens", index), "compiled": ("Queries and numbers", compiled), "store": ("The store", store),
          "hub": ("Requests and frames", hub), "hostile": ("Made to take long", hostile), "reading": ("Growth", shapes)}


def section(title, figures, name, made):
    it = figures["parts"].get(name, {})
    body = list(made(it["result"])) if "result" in it else [f"Not measured: {it.get('failed', 'bench/report.py has not run')}."]
    if it.get("commit") and it["commit"] != figures["about"].get("commit"):
        body.append(f"This part was measured later, on {it['date']}, with commit {it['commit']}.")
    return [title, *body]


def about(figures):
    it = figures["about"]
    if not it:
        return ["No run of the report is recorded yet."]
    rows = [["machine", it["machine"]], ["program", it["program"]], ["peers", ", ".join(it["peers"])],
            ["load before the run", f"{it['load']:.2f} processes ready to run"], ["date", it["date"]]]
    return [table(["what", "which"], rows)]


def benchmarks(figures):
    blocks = ["# Benchmarks",
              filled("For whoever wants to know what path_server costs. `bench/report.py` measures all of this in one run and writes this page. Forms of code that were "
                     "tried are in [TRIED.md](TRIED.md)."),
              *about(figures),
              filled("Everything runs on this one machine, over the loopback address and with default settings; Redis keeps nothing on disk. Figures differ "
                     "by half between machines and by a tenth between runs, so compare within a table.")]
    for name, (title, made) in SECTIONS.items():
        blocks += section(f"## {title}", figures, name, made)
    blocks += ["## Building and checking", *building(figures)]
    blocks.append("## The inside")
    blocks.append("For whoever changes the code. These programs call the crates directly (`crates/path_bench`).")
    blocks += ["### Where a request's time goes", *steps(figures)]
    for name, (title, made) in INSIDE.items():
        blocks += section(f"### {title}", figures, name, made)
    blocks += ["## Repeat it", "    bench/peers.sh\n    bin/build\n    bench/report.py",
               filled("`bench/peers.sh` installs the peers from Debian. `bench/report.py --help` lists the parts: `--only connections,rounds` measures some of them, and "
                      "`--quick` only shows that each part works. Run it while nothing else runs. The times of a build and of the gate come from what these printed: "
                      "`bench/report.py --build build/log` and `bench/report.py --gate FILE`."),
               "Next: [PROVED.md](PROVED.md) says what is proved, [TRIED.md](TRIED.md) what was tried for speed."]
    return "\n\n".join(blocks) + "\n"


# ---- README

def of(figures, name):
    return figures["parts"].get(name, {}).get("result")


def with_times(text, figures):
    """Text with the minutes of a first answer, a build and a gate between their marks, and on how many processors, as far as they are recorded."""
    for name in ("unproved", "build", "gate"):
        it = of(figures, name)
        if it:
            told = f"{max(round(it['wall'] / 60), 2)} minutes{on_processors(figures, name)}"
            text = re.sub(rf"(<!-- {name} -->).*?(<!-- -->)", rf"\g<1>{told}\2", text, flags=re.S)
    return text


def readme(figures):
    """The comparison in README, between its two marks."""
    loads, latencies, texts = of(figures, "connections"), of(figures, "rounds"), of(figures, "queries")
    echo = {title: server[0] for title, _, server, _ in latencies["echo"]} if latencies else {}
    redis, postgres = (dict(latencies[name]) for name in ("redis", "postgres")) if latencies else ({}, {})
    get, ask = "GET of 13 bytes", "QUERY `$.a[1]` on 13 bytes"
    shell = next((by for length, _, by in texts["rows"] if length == MEBIBYTE), {}) if texts else {}
    served = next((row[1:] for row in texts["served"] if row[0] == MEBIBYTE), (None, None)) if texts else (None, None)

    def us(number):
        return rounded(number) if number else NONE

    def stored(number):
        return f"{rounded(number / 1000)} stored" if number else NONE

    def from_file(*tools):
        return ", ".join(f"{rounded(shell[tool][0] * 1000)}" for tool in tools if tool in shell) + " from a file" if shell else NONE

    ours = f"{stored(served[0])}, {from_file('path_server')}" if shell and served[0] else NONE
    rows = [["path_server", us(echo.get(get)), us(echo.get(ask)), ours, "tenants share a process and must not notice one another"],
            ["Redis, RedisJSON", us(redis.get(get, [None])[0]), NONE, NONE, "you need durability, replicas, expiry or more than 16 MiB a tenant"],
            ["PostgreSQL jsonb", us(postgres.get(get)), us(postgres.get(ask)), stored(served[1]), "you need transactions, joins, indexes or regular expressions"],
            ["SQLite", "no network", "no network", from_file("sqlite3"), "one program owns the data and wants it in a file"],
            ["jq, gojq", "no server", "no server", from_file("jq", "gojq"), "you transform a file's values, not only select them"]]
    said = "The figures are from [docs/BENCHMARKS.md](docs/BENCHMARKS.md): a request and its reply on one connection, and a filter on 1 MiB of small orders."
    rate = next((by["path_server"][0] for count, by in loads["rows"] if count == 100), None) if loads else None
    if rate:
        said += f" One thread answers {rounded(rate)} requests a second over 100 connections."
    if "jq" in shell:
        said += f" A file of 1 MiB is queried {shell['jq'][0] / shell['path_server'][0]:.0f} times as fast as with jq."
    return "\n".join([BEGIN, "", filled(said), "", table(["", "get, µs", "query, µs", "filter 1 MiB, ms", "use it when"], rows), "", END])
