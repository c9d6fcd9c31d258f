#!/usr/bin/python3
"""Prints docs/DEFINITIONS.md: the definitions of the headline in the order of reading, each with its comment, and the files that the
contract of `run` reaches, in the order in which it does, each with the names that other files cite and with the standard that it restates.

usage: bench/tools/definitions.py > docs/DEFINITIONS.md
"""

import re
import sys

from closure import CRATES, File, cited, crate_of, found, load, reached, sizes

HEADLINE = "hb_headline"
RUN = CRATES / "hb_cli/src/command.rt"

# The standard of which the sections stand alone.
USUAL = "RFC 9113 "

# A standard with its sections, and the files that restate it.
STANDARDS = """\
RFC 3629: hb_base Utf8
encoding guide "Base 128 Varints": hb_base Groups; hb_wire Varint
encoding guide "Message Structure": hb_wire WireType Message Spelling Breaks; hb_message Reading; hb_disco Written
encoding guide "Message Structure", "Packed Repeated Fields": hb_wire Field
encoding guide "Packed Repeated Fields": hb_wire Writing; hb_records Numbers; hb_canonical Authorization
encoding guide "Maps": hb_records Ports; hb_canonical Ports; hb_disco Request
encoding guide "Message Structure", "Default Values": hb_canonical Fields Gateway
RFC 7541 5.1: hb_base Groups; hb_hpack Integer
RFC 7541 5.2, Appendix B: hb_hpack Huffman HuffmanSteps
RFC 7541 5.2: hb_hpack Literal
RFC 7541 2.3, 4, Appendix A: hb_hpack Table StaticTable
RFC 7541 3, 4.2, 6: hb_hpack Block
RFC 7541 2.3.3, 4.2, 5, 6: hb_hpack Breaks
RFC 7541 4.1: hb_hpack Decoded
RFC 7541 6: hb_hpack Encoding
RFC 7541: hb_blocks Outcome Faults; hb_owed Frames
RFC 7541 6.2.2: hb_make Octets
RFC 4291 2.2: hb_base IpText
RFC 4291 2.5.5.2: hb_base Octets
RFC 4291 2.3: hb_base Cidr
RFC 4291 2.5.2: hb_verdict Verdict
RFC 3986 3.2.2: hb_base IpText
RFC 5952 4: hb_base IpText; hb_lines Value
SPIFFE ID 2: hb_base IdentityText
language guide "Scalar Value Types": hb_message Reading; hb_records Entries
language guide "Oneof Features": hb_records StringMatch Network Gateway Address
Envoy xDS protocol "Resource Types": hb_disco Kind
Envoy xDS protocol "Incremental xDS": hb_disco Response; hb_held Held Outcome; hb_model Discovery
Envoy xDS protocol "ACK/NACK and resource type instance version": hb_disco Request; hb_model Requests
RFC 8259 7: hb_lines Refused; hb_quote Name
RFC 8259: hb_lines Outcome Row Fields Explained; hb_script Form Spelling
RFC 8259 4: hb_lines Object
RFC 4632 3.1: hb_lines RuleFields
clap: hb_words Words; hb_options Items Given Taken
gRPC "Length-Prefixed-Message": hb_cli Input; hb_model Messages; hb_node Inbox; hb_grpc Message Reading Framed Pieces
gRPC "Requests": hb_model Discovery
gRPC: hb_headline Held
RFC 9113 4.1: hb_frames RawFrame Frames Octets; hb_outgoing Queue Written Laws
RFC 9113 6: hb_frames Bodies
RFC 9113 4.2, 6, 8.4: hb_frames Refusals
RFC 9113 5.1.1, 6, 6.5.2, 6.9, 6.9.1, 7: hb_frames Numbers
RFC 9113 6.9.1, 6.9.2: hb_windows Sending
RFC 9113 5.2, 6.9: hb_windows Taking; hb_flow Flows Windows; hb_node Laws; hb_inbound Connections; hb_gateway Connections
RFC 9113 5.2, 6.9: hb_proxy Settled SettledRefused PlainWaits
RFC 9113 5.1, 5.1.1, 5.1.2: hb_streams Numbers States Laws
RFC 9113 5.1: hb_streams Sides; hb_conn Owing; hb_kept Sides
RFC 9113 5.1: hb_streams Resets
RFC 9113 5.1, 5.1.1, 5.1.2, 5.4, 8.5: hb_streams Answers
RFC 9113 5.1, 8.7: hb_streams Moves
RFC 9113 6.9, 6.9.1: hb_flow Answers
RFC 9113 6.9.2: hb_flow Sizes; hb_history Taking; hb_inbound Rings; hb_laws Routes; hb_headline Buffers
RFC 9113 6.9: hb_flow Moves Laws; hb_history Waits OwnCredits CreditExamples; hb_kept Shut; hb_inbound Calm; hb_gateway Sides
RFC 9113 3.4, 4.1: hb_outgoing Waiting; hb_history History; hb_make Octets
RFC 9113 5.1, 6.1, 6.2, 6.9: hb_outgoing Selected
RFC 9113 4.3, 6.2, 6.10: hb_blocks Assembly; hb_conn Headers
RFC 9113 4.3, 7: hb_blocks Outcome Faults
RFC 9113 4.3: hb_blocks Laws; hb_inbound Block
RFC 9113 5.1, 6.1, 6.2, 6.4, 6.9: hb_owed Dues
RFC 9113 6.1, 6.2, 6.4, 6.9: hb_owed Frames
RFC 9113 5.2, 6.1, 6.4, 6.7, 6.9: hb_conn Data Windows Resets Ping
RFC 9113 6.5, 6.9.2: hb_conn Settings Sizes
RFC 9113 5.4.1, 5.4.2, 6.4: hb_conn Faults
RFC 9113 3.4, 6.10: hb_conn Places Handling
RFC 9113 3.4: hb_conn Preface Receiving Connection Loan
RFC 9113 4.2, 6.1, 6.9: hb_conn Payload
RFC 9113 5.1, 6.9.1: hb_conn Ending; hb_history Live
RFC 9113: hb_conn Observed; hb_model Connections
RFC 9113 5.1.1, 5.1.2, 6.9, 8.5: hb_conn Credit Opening
RFC 9113 3 to 6: hb_history Points
RFC 9113 5.4, 6.4: hb_history TakenBack; hb_kept DataWaits
RFC 9113 6.5.2, 6.9, 6.9.2: hb_history Sending
RFC 9113 6.5.3, 6.7: hb_history Answered
RFC 9113 3.4, 5.1, 6.8: hb_history OwnFrames OwnExamples
RFC 9113 5.1, 6.1, 6.2, 6.4: hb_history Heard
RFC 9113 6.5.3, 6.9, 6.9.2: hb_history Fits
RFC 9113 4, 5.4.1: hb_kept Looks
RFC 9113 5.1.1: hb_kept Opened Numbers
RFC 9113 6.1: hb_kept Payloads; hb_headline Held
RFC 9113 6.9.1: hb_kept Creditable
RFC 9113 6.8: hb_model Discovery
RFC 9113 4.1, 5.1: hb_model Inner
RFC 9113 6.9, 6.9.2: hb_model Windows
RFC 9113 6.5.3, 6.7, 6.9, 6.9.2: hb_model Puts
RFC 9113 3.4, 6.8: hb_model Frames
RFC 9113 4.2, 6.9.2: hb_tunnel Tunnel
RFC 9113 8.1.1, 8.2.1, 8.3, 8.5: hb_verdict Fields
RFC 9113 8.5: hb_verdict Request; hb_route Answer; hb_inbound Verdicts; hb_gateway Runs; hb_relay Streamed
RFC 9113 8.5: hb_laws RefusedGateways Gateways RefusedRoutes; hb_relays Joining Looking Pumping Leaving
RFC 9113 5.4: hb_inbound Inbound
RFC 9113 7: hb_inbound Runs
RFC 9113 5.4.1: hb_inbound Closes; hb_laws Closes
RFC 9113 6.8, 8.1.1, 8.5: hb_gateway Response
RFC 9113 5.1, 6.8, 8.5: hb_gateway Gateway; hb_gate Streams Hearing Resetting
RFC 9113 5.1.1, 6.8: hb_gateway Asks
RFC 9113 5.1, 6.8: hb_gateway Resets
RFC 9113 6.1, 6.2, 6.4, 6.8: hb_laws RefusedHearing
RFC 9113 4.2, 6.9: hb_laws RefusedWindows
RFC 9113 3.4, 4.1, 6.1: hb_headline Relay
RFC 9113 3.4, 4.2, 6.5.3, 6.9: hb_headline Windows
RFC 9113 3.4, 6.1: hb_headline Good
RFC 9110 15.2: hb_model Discovery
RFC 9110 15: hb_captured Answer Runs; hb_gateway Response
RFC 9110 15.3: hb_laws Gateways
PROXY protocol 2.2: hb_captured Captured; hb_gateway Key Keys; hb_laws RefusedPlain RefusedOutbound Good
PROXY protocol 2.2: hb_headline Relay Good; hb_front Header Reading Written Laws; hb_make Octets
PROXY protocol 2.2, 2.2.8: hb_front Tlvs
"""

HEAD = """\
# Definitions

What a reader has to believe: a contract says no more than the definitions that it cites. Each stands in a file of a crate's `specs`, with a
comment that says it aloud. A definition is a function where the answer is determined, and a relation where bytes may be spelled in several
ways. In comments the front of a list is a prefix of it, and a plain link is a captured link ([LAWS.md](LAWS.md#ten-words)).

Files are named without their ending; brackets have the standard that a file restates. Numbers alone are sections of RFC 9113, the encoding
and the language guide are those of Protocol Buffers, gRPC is its page on HTTP/2, and the PROXY protocol is version 2.

`bench/tools/definitions.py` prints this page, and `.ci/docs` compares the two. `bench/tools/closure.py --list CRATE.NAME` prints all
definitions that a name rests on, each behind those that it rests on itself.
"""


def standards():
    """The standards of each file, by its crate and its name."""
    told = {}
    for line in STANDARDS.splitlines():
        standard, _, files = line.rpartition(": ")
        for group in files.split("; "):
            crate, *names = group.split(" ")
            for name in names:
                if not (CRATES / crate / "specs" / f"{name}.antt").exists():
                    sys.exit(f"{crate} has no file {name} for {standard}")
                told.setdefault((crate, name), []).append(standard)
    return told


def title(file, told):
    """A file's name, and in brackets the standards that it restates."""
    restated = "; ".join(name.removeprefix(USUAL) for name in told.get((crate_of(file), file.path.stem), []))
    return file.path.stem + (f" ({restated})" if restated else "")


def by_run(files):
    """The definitions that the contract of `run` reaches, nearest first, each with those that it cites; and those that it cites itself."""
    code, text = File(RUN), re.sub(r"//.*", "", RUN.read_text())
    begin = text.index("pub fn run<")
    begins = [at for module, name in code.cites(text[begin : text.index("\n{\n", begin)]) if (at := found(files, module, name))]
    order, todo = {}, begins
    while todo:
        below = []
        for file, name in todo:
            if (file, name) not in order:
                order[file, name] = list(cited(files, file, "\n".join(file.items[name]), name))
                below += order[file, name]
        todo = below
    return order, begins


def fields_of(file, name):
    """The fields of a record that have a comment, each with it."""
    lines = file.lines[file.lines.index(file.items[name][0]) :]
    for above, line in zip(lines, lines[1:]):
        if not line.startswith("  "):
            return
        if above.startswith("  --") and (match := re.match(r"  pub (\w+) :", line)):
            yield match[1], above.strip("- ")


def print_named(file, names):
    """Definitions that follow one another, of which the first has the comment; of a record without one its fields have them."""
    said = file.comments[names[0]]
    said = said if said[:2].isupper() else said[:1].lower() + said[1:]
    print(f"- {', '.join(f'`{name}`' for name in names)}" + (f": {said}" if said else ""))
    if not said:
        print("\n".join(f"  - `{field}`: {text}" for field, text in fields_of(file, names[0])))


def print_headline(files, told):
    order = reached(files, [(files[f"{HEADLINE}.specs.Headline"], "Headline")])
    head = (CRATES / HEADLINE / "src/lib.rt").read_text().replace("\n//!", "")
    print("\n## The headline\n")
    others = sum(crate_of(file) != HEADLINE for file, _ in order)
    print(f"The files of {HEADLINE} in the order of reading, but for the small traces of Refused and Good.")
    print(f"They rest on {others:,} definitions of other crates.")
    for stem in re.search(r"in the order ([\w, ]+?), and", head)[1].split(", "):
        file = files[f"{HEADLINE}.specs.{stem}"]
        print(f"\n**{title(file, told)}**\n")
        groups = []
        for name in file.items:
            if file.comments[name] or not groups:
                groups.append([])
            groups[-1].append(name)
        for names in groups:
            print_named(file, names)


def by_crate(files):
    crates = {}
    for file in files:
        crates.setdefault(crate_of(file), []).append(file)
    return crates.items()


def print_index(files, told):
    order, begins = by_run(files)
    others = {file: {} for file, _ in order}
    for file, name in begins + [at for (file, _), below in order.items() for at in below if at[0] is not file]:
        others[file][name] = None
    many, lines = sizes(list(order))
    print("\n## What `run` rests on\n")
    print(f"{many:,} definitions of {lines:,} lines in {len(others)} files, in the order in which the contract of `run` reaches them:")
    print("each file, and the names in it that the contract or other files cite.")
    for crate, its in by_crate(others):
        print(f"\n**{crate}**\n")
        for file in its:
            print(f"- {title(file, told)}" + (f": {', '.join(others[file])}" if others[file] else ""))
    print("\n## The other files\n")
    print("Statements of laws, small wrong examples and good ones, and definitions that a crate's own calls cite.\n")
    for crate, its in by_crate(file for file in files.values() if file not in others and file.items):
        print(f"- **{crate}**: {', '.join(title(file, told) for file in its)}")


def main():
    files, told = load(), standards()
    print(HEAD, end="")
    print_headline(files, told)
    print_index(files, told)


main()
