"""Reads messages with expat, a parser that is not ours, and compares each with the tree that its values make.

Standard input has the records of tests/differential/src/told.rs. The tree of a message is made here from the flow, which expat reads
too, the outcome bytes and the caller's values, by document 02's sentences alone.
"""

import re
import sys
from xml.parsers import expat

REFERENCES = {"&amp;": "&", "&lt;": "<", "&gt;": ">", "&quot;": '"', "&apos;": "'"}
WORDS = {1: "ACQUISITO", 2: "VARIATO", 3: "ANNULLATO", 4: "SOSTITUITO"}
OPERATIONS = {word: number for number, word in WORDS.items()}
HEADER = ["codice_ABI_BT", "data_ora_creazione_flusso", "codice_ente", "descrizione_ente", "codice_istat_ente", "codice_fiscale_ente",
          "codice_tramite_ente", "codice_tramite_BT", "codice_ente_BT"]
ENTRY = ["identificativo_flusso", "esercizio", "numero_{0}", "data_{0}", "importo", "esito_operazione", "data_ora_esito_operazione"]
ERROR = ["codice_errore", "descrizione", "elemento"]


def read(document, id_allowed=False):
    """The tree of a document: a name, and a list of trees or a text."""
    open_elements, root = [], []

    def start(name, attributes):
        # Only a root that is read may have one: an Id.
        assert set(attributes) <= ({"Id"} if id_allowed and not open_elements else set())
        open_elements.append((name, [], []))

    def end(name):
        _, children, texts = open_elements.pop()
        tree = (name, children if children else "".join(texts))
        assert not children or not "".join(texts).strip(" \t\r\n")
        (open_elements[-1][1] if open_elements else root).append(tree)

    parser = expat.ParserCreate()
    parser.StartElementHandler = start
    parser.EndElementHandler = end
    parser.CharacterDataHandler = lambda text: open_elements[-1][2].append(text)
    parser.Parse(document, True)
    return root[0]


def shown(text):
    """A text as a parser shows it: ends of lines made one character, references replaced."""
    lines = text.decode().replace("\r\n", "\n").replace("\r", "\n")
    return re.sub("&[a-z]+;", lambda reference: REFERENCES[reference[0]], lines)


def child(tree, name):
    """The one child of this name."""
    found = [inside for inside_name, inside in tree[1] if inside_name == name]
    assert len(found) == 1, (name, found)
    return found[0]


def flat(flow):
    """A flow of edition 2 with its header's four fields among the root's children, as edition 1 has them."""
    four = ("codice_ABI_BT", "identificativo_flusso", "data_ora_creazione_flusso", "codice_ente_BT")
    fields = [tree for tree in child(flow, "testata_flusso") if tree[0] in four]
    return (flow[0], fields + [tree for tree in flow[1] if tree[0] not in four])


def element_in_error(kind, code):
    order, party = ("mandato", "beneficiario") if kind == 1 else ("reversale", "versante")
    if code == 12:
        return "progressivo_" + party
    return ("importo_" if code in (13, 19) else "numero_") + order


def entry_of(flow, order, outcome, time):
    kind, operation, code = outcome[:3]
    name = "mandato" if kind == 1 else "reversale"
    cents = int.from_bytes(outcome[8:16], "big")
    texts = [child(flow, "identificativo_flusso"), child(flow, "esercizio"), str(int.from_bytes(outcome[4:8], "big")),
             child(order, "data_" + name), "%d.%02d" % divmod(cents, 100), ("NON " if code else "") + WORDS[operation], shown(time)]
    assert int(child(order, "numero_" + name)) == int.from_bytes(outcome[4:8], "big")
    assert child(order, "importo_" + name).replace(".", "").lstrip("0") == str(cents).lstrip("0")
    children = [(label.format(name), text) for label, text in zip(ENTRY, texts)]
    if code:
        children.append(("lista_errori", list(zip(ERROR, [str(code), str(code), element_in_error(kind, code)]))))
    return ("esito_mandati" if kind == 1 else "esito_reversali", children)


def due(flow, outcomes, given):
    """The tree that a message has to have."""
    created, time, ente, descrizione, istat, fiscale, tramite_ente, tramite_bt, flusso_bt = given
    texts = [child(flow, "codice_ABI_BT")] + [shown(text) for text in (created, ente, descrizione, istat, fiscale, tramite_ente, tramite_bt)]
    texts.append(child(flow, "codice_ente_BT"))
    testata = [(name, text) for name, text in zip(HEADER, texts) if name != "codice_istat_ente" or text]
    orders = [tree for tree in flow[1] if tree[0] in ("mandato", "reversale")]
    entries = [entry_of(flow, order, outcomes[16 * i:16 * i + 16], time) for i, order in enumerate(orders)]
    entries = [entry for entry in entries if entry[0] == "esito_reversali"] + [entry for entry in entries if entry[0] == "esito_mandati"]
    return ("messaggi_esito_applicativo", [("testata_messaggio", testata), ("identificativo_flusso_BT", shown(flusso_bt))] + entries)


def told(message, values):
    """What reading tells of a message: the ten texts at the places and lengths, and of each entry its numbers and two texts."""
    def text(at):
        place, length = (int.from_bytes(values[at + i:at + i + 4], "big") for i in (0, 4))
        return message[place:place + length]

    def entry(at):
        assert not any(values[at + zero] for zero in (3, 6, 7, *range(40, 48)))
        numbers = [int.from_bytes(values[at + a:at + b], "big") for a, b in ((4, 6), (8, 12), (16, 24))]
        date = "%04d-%02d-%02d" % (int.from_bytes(values[at + 12:at + 14], "big"), values[at + 14], values[at + 15])
        return [*values[at:at + 3], *numbers, date, text(at + 24), text(at + 32)]

    return [text(8 * pair) for pair in range(10)], [entry(at) for at in range(80, len(values), 48)]


def check_values(message, values, tree):
    """The places, lengths and numbers that reading tells are what the message's tree has."""
    texts, entries = told(message, values)
    header, flusso_bt, *inside = known(tree)[1]
    header = dict(header[1])
    assert [shown(text) for text in texts] == [header.get(name, "") for name in HEADER] + [flusso_bt[1]]
    assert len(entries) == len(inside)
    for entry, (name, fields) in zip(entries, inside):
        fields = dict(fields)
        kind = 1 if name == "esito_mandati" else 2
        order = "mandato" if kind == 1 else "reversale"
        code = int(dict(fields["lista_errori"])["codice_errore"]) if "lista_errori" in fields else 0
        operation = OPERATIONS[fields["esito_operazione"].removeprefix("NON ")]
        assert fields["esito_operazione"].startswith("NON ") == (code != 0)
        numbers = [int(fields["esercizio"]), int(fields["numero_" + order]), int(fields["importo"].replace(".", ""))]
        texts = [fields["identificativo_flusso"], fields["data_ora_esito_operazione"]]
        assert entry[:7] + [shown(text) for text in entry[7:]] == [kind, operation, code, *numbers, fields["data_" + order], *texts]


def check_given(message, values, flow, given):
    """The texts that reading tells of a message that was written are byte for byte those that were given."""
    created, time, *others, flusso_bt = given
    abi, body, identifier = (child(flow, name).encode() for name in ("codice_ABI_BT", "codice_ente_BT", "identificativo_flusso"))
    texts, entries = told(message, values)
    assert texts == [abi, created, *others, body, flusso_bt]
    assert all(entry[7:] == [identifier, time] for entry in entries)


def known(tree):
    """A message's tree without what is passed over, and its numbers without zeros in front."""
    rows = {"messaggi_esito_applicativo": ["testata_messaggio", "identificativo_flusso_BT", "esito_reversali", "esito_mandati"],
            "testata_messaggio": HEADER, "lista_errori": ERROR}
    rows["esito_mandati"] = [name.format("mandato") for name in ENTRY] + ["lista_errori"]
    rows["esito_reversali"] = [name.format("reversale") for name in ENTRY] + ["lista_errori"]
    name, inside = tree
    if name in rows:
        return (name, [known(kid) for kid in inside if kid[0] in rows[name]])
    return (name, inside.lstrip("0") if name.startswith("numero_") else inside)


def records(stream):
    """Each record's kind and parts."""
    while line := stream.readline():
        kind, *lengths = line.split()
        parts = [stream.read(int(length)) for length in lengths]
        assert [len(part) for part in parts] == [int(length) for length in lengths], "the records end in the middle of one"
        yield kind.decode(), parts


def check_layout(written):
    """Nothing stands between the elements: bytes of tags and texts are all there is."""
    assert written.startswith(b"<messaggi_esito_applicativo>") and written.endswith(b"</messaggi_esito_applicativo>")
    assert not re.search(rb"</[A-Za-z_]+>[ \t\r\n]+<", written), written


def check(kind, parts):
    if kind == "written":
        edition, flow, outcomes, *given, message, values = parts
        flow = read(flow, id_allowed=True)
        flow = flat(flow) if edition == b"\2" else flow
        tree = read(message)
        assert tree == due(flow, outcomes, given), (message, tree)
        check_values(message, values, tree)
        check_given(message, values, flow, given)
        check_layout(message)
    elif kind == "again":
        message, again = parts
        assert read(again) == known(read(message, id_allowed=True)), (message, again)
        check_layout(again)
    else:
        message, values = parts
        check_values(message, values, read(message, id_allowed=True))


def main():
    counts = {"written": 0, "again": 0, "read": 0}
    for kind, parts in records(sys.stdin.buffer):
        check(kind, parts)
        counts[kind] += 1
    assert min(counts.values()) > 0, counts
    print("%d messages written, %d written again and %d read are the trees that %s reads" % (*counts.values(), expat.EXPAT_VERSION))


main()
