"""Where a refusal's names stand in the SPEF file of its run: sections, connections, nodes and resistors."""
from commands import Finding, NoPlace, token_finding
from files import shown
from net_elements import ElementsReader
from net_trees import Pieces
from node_names import index_key, shown as written
from parasitics import Section, SpefFile


def at(command, section, place, remark=""):
    """The place of a word of a section."""
    return command.place("--spef", section.part.tokens[place], remark)


def spef_number(command, refusal):
    if not refusal.line.endswith("token 0"):
        return token_finding(command, "--spef", refusal.number("N"))
    spef = SpefFile(command.data("--spef"))
    missing = " and no ".join(shown(unit) for unit, place in spef.head.units.items() if place is None)
    first = next(spef.parts).tokens[1]
    return Finding([command.place("--spef", first)], [f"The nets begin here, and the head has no {missing}."])


def name_index(command, refusal):
    finding = token_finding(command, "--spef", refusal.number("N"))
    if "repeated" not in refusal.line:
        return finding
    head = SpefFile(command.data("--spef")).head_part
    index = index_key(finding.places[0].text())
    first = next(token for token, word in zip(head.tokens, head.words) if word[:1] == b"*" and index_key(word) == index)
    return Finding(finding.places + [command.place("--spef", first, "it stands first here")], finding.notes)


def elements_of(command, refusal):
    """What each section of the net of a refusal says."""
    spef, net = SpefFile(command.data("--spef")), refusal.name("NET")
    reader, found = ElementsReader(spef), []
    for part in spef.parts:
        if spef.names.net(part.words[1]) == net:
            section = Section(part)
            section.read(part.words, spef.is_ref)
            found.append(reader.read(section))
    if not found:
        raise NoPlace(f"{command.path('--spef')} was searched for a section of the net {refusal.fields['NET']}, and has none")
    return found


def repeated_net(command, refusal):
    found = elements_of(command, refusal)
    if len(found) < 2:
        raise NoPlace(f"{command.path('--spef')} has one section of the net {refusal.fields['NET']}")
    return Finding([at(command, found[1], 1), at(command, found[0], 1, "its first section is here")], [])


def node_places(command, refusal, elements, nodes):
    """The first place of the node of a refusal among nodes of its net, and that of the section."""
    text, net = refusal.name("NODE"), refusal.fields["NET"]
    node = next((node for node in nodes if written(node) == text), None)
    if node is None:
        raise NoPlace(f"the section of the net {net} was searched for the node {shown(text)}, and has none")
    return [at(command, elements, elements.place_of(node)), at(command, elements, 1, "the section of the net")]


def strange_pin(command, refusal):
    elements = elements_of(command, refusal)[0]
    return Finding(node_places(command, refusal, elements, elements.listed), [])


def unreached_node(command, refusal):
    elements = elements_of(command, refusal)[0]
    places = node_places(command, refusal, elements, elements.nodes())
    drivers = [at(command, elements, elements.listed[node][2], "the net's driver") for node in elements.drivers()]
    return Finding(places + drivers[:1], [])


def mesh(command, refusal):
    elements = elements_of(command, refusal)[0]
    closing = Pieces(elements.resistors).closing
    if not closing:
        raise NoPlace(f"no resistor in the section of the net {refusal.fields['NET']} closes a loop")
    first, last = at(command, elements, closing[0] + 1), at(command, elements, closing[0] + 2)
    notes = ["This resistor closes a loop over those before it."]
    if len(closing) > 1:
        notes.append(f"{len(closing)} resistors of the net do so.")
    return Finding([first._replace(end=last.end), at(command, elements, 1, "the section of the net")], notes)


def no_driver(command, refusal):
    return Finding([at(command, elements_of(command, refusal)[0], 1)], [])


def several_drivers(command, refusal):
    elements = elements_of(command, refusal)[0]
    places = [at(command, elements, elements.listed[node][2], "it drives the net too") for node in elements.drivers()]
    if len(places) < 2:
        raise NoPlace(f"the section of the net {refusal.fields['NET']} was searched for two drivers")
    return Finding([places[1]._replace(remark="")] + places[:1] + places[2:5], [])


def net_limit(command, refusal):
    elements = elements_of(command, refusal)[0]
    counts = [len(part) for part in (elements.section.resistors, elements.section.capacitances, elements.section.conns)]
    note = "The section has {} resistors, {} capacitances and {} connections.".format(*counts)
    return Finding([at(command, elements, 1)], [note])


def section_names(command):
    spef = SpefFile(command.data("--spef"))
    return {spef.names.net(part.words[1]) for part in spef.parts} - {None}


FINDERS = {
    "E30": spef_number,
    "E31": name_index,
    "E32": repeated_net,
    "E34": strange_pin,
    "E35": unreached_node,
    "E36": mesh,
    "E60": no_driver,
    "E61": several_drivers,
}
