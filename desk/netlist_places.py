"""Where a refusal's names stand in the netlist of its run: modules, ports, ranges, instances, nets and loops."""
import re

from commands import Finding, NoPlace
from files import shown
from flat_design import driven_nets
from libraries import Library, pins_of
from netlists import DIRECTIONS, Netlist, Statement, bare, is_within, uses_of
from program import CannotRun, Program
from spef_places import section_names
from texts import text_of

LARGEST_BOUND = 1_048_575
MOST_BITS = 65_536
# So many places of one kind are shown.
MOST_SHOWN = 4


def netlist_of(command):
    return command.once(Netlist, command.data("--netlist"))


def library_of(command, corner="only"):
    return command.once(Library, command.data(command.library_key(corner)))


def top_of(command):
    if "--top" not in command.values:
        raise NoPlace("the words of the command have no --top")
    return command.values["--top"].encode("utf-8", "surrogateescape")


def top_finding(command):
    """The top module: what is said of the whole design is said of it."""
    module = netlist_of(command).modules.get(top_of(command))
    return Finding([command.place("--netlist", module.token, "")] if module else [], [])


def repeated_name(command, refusal):
    """The first name, by its place, before which another of its kind and scope stands, and that one."""
    name = refusal.name("NAME")
    found = [event for module in netlist_of(command).every for event in module.names(module.mentioning(name)) if event[0] == name]
    seen = {}
    for _, token, scope in sorted(found, key=lambda event: event[1].start):
        if scope in seen:
            return Finding([command.place("--netlist", token), command.place("--netlist", seen[scope], "it stands first here")], [])
        seen[scope] = token
    raise NoPlace(f"the modules, ports, wires and instances were searched for a second {refusal.fields['NAME']}")


def is_past(bounds):
    return bounds is not None and (max(bounds) > LARGEST_BOUND or abs(bounds[0] - bounds[1]) >= MOST_BITS)


def range_of(module, name):
    declared = own_declarations(module, name)
    return declared[0].range if declared else None


def own_declarations(module, name):
    """The declarations of a name that say its range: all but a header's without a direction."""
    return [declared for declared in module.declarations(name) if declared.by != (b"header",)]


def is_bad_select(bounds, select):
    """Whether a select leaves the range of its name, or runs the other way."""
    if bounds is None or not (is_within(select[0], bounds) and is_within(select[1], bounds)):
        return True
    return (bounds[0] - bounds[1]) * (select[0] - select[1]) < 0


def width_of(module, connection):
    bits = sum(width_of_constant(module.data, token) for token in connection.constants)
    for part in connection.parts:
        bounds = part.select or range_of(module, part.name)
        bits += abs(bounds[0] - bounds[1]) + 1 if bounds else 1
    return bits


def width_of_constant(data, token):
    return int(data[token.start : token.end].split(b"'")[0])


def bad_ranges(module, name):
    """The tokens of this name at which a range, a select, a constant or a connection is bad."""
    declared = own_declarations(module, name)
    for one in declared:
        first = declared[0]
        if is_past(one.range) or ((b"wire" in one.by) != (b"wire" in first.by) and one.range != first.range):
            yield one.token
    for _, _, part in uses_of(module, name, None):
        if part.select and is_bad_select(range_of(module, name), part.select):
            yield part.token
    for instance in module.instances_with(name):
        for connection in instance.connections:
            if connection.port == name and width_of(module, connection) > MOST_BITS:
                yield connection.token


def bad_constants(netlist, text):
    """The tokens of a constant of this text."""
    for module in netlist.every:
        for token in (token for statement in module.statements for token in netlist.tokens(statement)):
            if token.kind == "constant" and module.data[token.start : token.end] == text:
                yield token


def bad_range(command, refusal):
    netlist, name = netlist_of(command), refusal.name("NAME")
    if name[:1].isdigit():
        found = list(bad_constants(netlist, name))
    else:
        found = [token for module in netlist.every for token in bad_ranges(module, name)]
    if not found:
        raise NoPlace(f"the ranges, selects and connections at {refusal.fields['NAME']} were examined, and none is bad")
    return Finding([command.place("--netlist", min(found, key=lambda token: token.start))], [])


def port_direction(command, refusal):
    for module in netlist_of(command).every:
        for declared, lacks in module.half_declared(module.declarations(refusal.name("NAME"))):
            name = shown(module.name)
            note = f"Module {name} has no direction of it." if lacks == b"direction" else f"The header of module {name} lacks it."
            return Finding([command.place("--netlist", declared.token)], [note])
    raise NoPlace(f"the headers and directions were searched for {refusal.fields['NAME']}")


def no_top(command, refusal):
    """The modules that could be the top."""
    netlist = netlist_of(command)
    note = f"{command.path('--netlist')} has no module of this name among its {len(netlist.every)}."
    remark = "no module has an instance of this one"
    places = [command.place("--netlist", module.token, remark) for module in netlist.uncalled()]
    return Finding(places[:MOST_SHOWN], [note])


def instances_of(command, name):
    """The instances that a refusal may mean, with their modules."""
    found = netlist_of(command).instances_at(top_of(command), name)
    if not found:
        raise NoPlace(f"the modules below {shown(top_of(command))} were searched for the instance {shown(name)}")
    return found


def connections_of(command, refusal, port):
    """The connections of a refusal's instance to its port, with the modules and the instances."""
    wanted = [
        (module, instance, connection)
        for module, instance in instances_of(command, refusal.name("INSTANCE"))
        for connection in instance.connections
        if connection.port == refusal.name(port)
    ]
    if not wanted:
        raise NoPlace(f"the instance {refusal.fields['INSTANCE']} was searched for a connection to {refusal.fields[port]}")
    return wanted


def in_module(module, instance):
    return f"Instance {shown(instance.name)} of {shown(instance.cell)} in module {shown(module.name)}."


def connection_finding(command, refusal, port):
    """The finding of a refusal's connection, and the instance."""
    found = connections_of(command, refusal, port)
    module, instance, _ = found[0]
    places = [command.place("--netlist", connection.token) for _, _, connection in found]
    others = [place._replace(remark="it may be this one") for place in places[1:]]
    return Finding(places[:1] + others, [in_module(module, instance)]), instance


def unknown_port(command, refusal):
    finding, instance = connection_finding(command, refusal, "PORT")
    module = netlist_of(command).modules.get(instance.cell)
    if module:
        names, kind = [port.name for port in module.ports()], "ports"
    else:
        names, kind = list(cell_pins(command, instance.cell)), "pins"
    listed = " ".join(shown(name) for name in dict.fromkeys(names[:40]))
    return Finding(finding.places, finding.notes + [f"{shown(instance.cell)} has the {kind} {listed}."])


def cell_pins(command, cell):
    found = library_of(command).cell(cell)
    return pins_of(found) if found else {}


def width(command, refusal):
    return connection_finding(command, refusal, "PORT")[0]


def inout_pin(command, refusal):
    finding, instance = connection_finding(command, refusal, "PIN")
    pin = cell_pins(command, instance.cell).get(refusal.name("PIN"))
    at = pin and (pin.attribute(b"direction") or pin)
    places = [command.place(command.library_key(), at, "the library says so here")] if at else []
    return Finding(finding.places + places, finding.notes)


def recursive_module(command, refusal):
    netlist = netlist_of(command)
    name = refusal.name("NAME")
    for way in ways_back(netlist, name):
        places = [command.place("--netlist", netlist.modules[name].token)]
        for outer, inner in zip(way, way[1:] + [name]):
            instance = netlist.modules[outer].first_of(inner)
            places.append(command.place("--netlist", instance.token, f"{shown(outer)} has an instance of {shown(inner)}"))
        return Finding(places, [])
    raise NoPlace(f"the module {refusal.fields['NAME']} was searched for an instance of itself")


def ways_back(netlist, name):
    """The modules from one to itself, by the shortest way, if there is one."""
    ways, seen = [[name]], set()
    for way in ways:
        module = netlist.modules[way[-1]]
        for cell in dict.fromkeys(bare(statement.first) for statement in module.statements[1:]):
            if cell == name:
                yield way
                return
            if cell in netlist.modules and cell not in seen:
                seen.add(cell)
                ways.append(way + [cell])


def name_clash(command, refusal):
    netlist, top, name = netlist_of(command), top_of(command), refusal.name("NAME")
    tokens = [token for _, token in netlist.nets_at(top, name)]
    if len(tokens) < 2:
        tokens = [instance.token for _, instance in netlist.instances_at(top, name)]
    if len(tokens) < 2:
        raise NoPlace(f"the modules below {shown(top)} were searched for two nets or two instances {refusal.fields['NAME']}")
    places = [command.place("--netlist", token, "it has this name too") for token in tokens]
    return Finding([places[-1]._replace(remark="")] + places[:-1][:MOST_SHOWN], [])


def bit_of(module, name):
    """The name and the bit that a net has in its module. A bit of none stands for a wire of one bit."""
    front, bracket, bit = name[:-1].rpartition(b"[")
    if not module.declarations(name) and name.endswith(b"]") and bracket and bit.isdigit():
        return front, int(bit)
    return name, None


def drivers_of(command, netlist, net):
    """The modules, instances and connections that drive a net."""
    for module, rest in netlist.scopes(top_of(command), net):
        yield from drivers_in(command, netlist, module, *bit_of(module, rest))


def drivers_in(command, netlist, module, name, bit):
    """What drives a name of a module, or a bit of it: connections to output pins of cells, there or in the modules below."""
    for instance, connection, part in uses_of(module, name, bit):
        inner = netlist.modules.get(instance.cell)
        if inner is None:
            pin = cell_pins(command, instance.cell).get(connection.port)
            if pin is not None and pin.value(b"direction") == b"output":
                yield module, instance, connection
        elif len(connection.parts) == 1 and not connection.constants:
            yield from drivers_in(command, netlist, inner, connection.port, bit_below(module, inner, connection, bit))
        elif is_output(inner, connection.port):
            # Which bit of the port it is, is not followed through braces.
            yield module, instance, connection


def bit_below(module, inner, connection, bit):
    """The bit of a port that a connection of one name joins to a bit of that name."""
    part, port = connection.parts[0], range_of(inner, connection.port)
    outer = part.select or range_of(module, part.name)
    if port is None or outer is None or bit is None:
        return None if port is None else port[0]
    ahead = abs(outer[0] - bit)
    return port[0] - ahead if port[0] > port[1] else port[0] + ahead


def is_output(module, port):
    """Whether a port of a module is declared as an output."""
    for declared in module.declarations(port):
        if b"direction" in declared.by:
            statement = next(one for one in module.statements if one.end > declared.token.start)
            tokens = module.netlist.tokens(Statement(statement.first, statement.start, declared.token.start))
            words = [text_of(module.data, token) for token in tokens]
            return [word for word in words if word in DIRECTIONS][-1] == b"output"
    return False


def net_place(command, netlist, net, remark=""):
    found = netlist.nets_at(top_of(command), net)
    if not found:
        raise NoPlace(f"the modules below {shown(top_of(command))} were searched for the net {shown(net)}")
    return command.place("--netlist", found[0][1], remark), found[0][0]


def several_drivers(command, refusal):
    netlist, net = netlist_of(command), refusal.name("NET")
    place, _ = net_place(command, netlist, net, "the net is declared here")
    found = list(drivers_of(command, netlist, net))
    drivers = [command.place("--netlist", connection.token, "this drives it too") for _, _, connection in found]
    if len(found) < 2:
        # An input of the top drives its net too.
        return Finding([place._replace(remark="")] + drivers, [])
    module, instance, _ = found[1]
    return Finding([drivers[1]._replace(remark=""), drivers[0], *drivers[2:MOST_SHOWN], place], [in_module(module, instance)])


def flat_nets(command):
    """The drivers of the nets of the design that have a sink, as the program lists them, or None where it cannot be run."""
    if not command.program:
        return None
    words = ["flat", "--netlist", command.path("--netlist"), "--top", command.values["--top"], "--lib", command.path(command.library_key())]
    try:
        listed, refused = Program(command.program).run(*words)
    except CannotRun:
        return None
    return None if refused else {net: driver for net, driver, _ in driven_nets(listed)}


def missing_net(command, refusal):
    netlist, net = netlist_of(command), refusal.name("NET")
    place, module = net_place(command, netlist, net)
    notes = [f"The net is declared in module {shown(module.name)}."]
    nets = flat_nets(command)
    if nets is None:
        return Finding([place], notes)
    sections = section_names(command)
    missing = [name for name in nets if name not in sections]
    notes.append(f"{shown(nets.get(net, b'?'))} drives it.")
    notes.append(f"{len(missing)} of {len(nets)} nets with a driver and a sink have no section.")
    # The same name behind another path, or a path that is joined otherwise.
    alike = re.compile(rb".*[^A-Za-z0-9]" + re.escape(net.rpartition(b"/")[2]), re.DOTALL)
    others = sorted(name for name in sections if alike.fullmatch(name) and name not in nets)
    if others:
        notes.append(f"The SPEF file has a section {shown(others[0])}, which is no such net of the netlist.")
    return Finding([place], notes)


def loop(command, refusal):
    netlist = netlist_of(command)
    nets = [refusal.name("NET")] + refusal.name("MORE").split()
    places = []
    for net in nets[:MOST_SHOWN]:
        drivers = list(drivers_of(command, netlist, net))
        for module, instance, connection in drivers[:1]:
            remark = f"{shown(instance.cell)} {shown(instance.name)} drives {shown(net)}"
            places.append(command.place("--netlist", connection.token, remark))
    if not places:
        places = [net_place(command, netlist, nets[0])[0]]
    notes = [places[0].remark + "."] if places[0].remark else []
    return Finding([places[0]._replace(remark="")] + places[1:], notes)


FINDERS = {
    "E06": repeated_name,
    "E07": bad_range,
    "E08": port_direction,
    "E10": no_top,
    "E12": unknown_port,
    "E13": width,
    "E14": recursive_module,
    "E15": name_clash,
    "E16": inout_pin,
    "E17": several_drivers,
    "E33": missing_net,
    "E40": loop,
}
