"""What a run rests on, as a text for readers and as JSON."""
import json

from delay_rows import MEMBERS, ONLY, picoseconds
from files import shown
from report_texts import number


def percent(part, whole):
    return 100 * part / whole if whole else 0.0


def largest(changed):
    return picoseconds(max((abs(one.size or 0) for one in changed.differences), default=0))


def change_lines(changed, title, most):
    return [f"  {title}: {one.text(changed.corners)}" for one in changed.differences[:most]]


def outside_lines(changed, most):
    if changed.refused:
        return [f"paths outside the tables: not known, as a run with one of {' and '.join(changed.values)} is refused: {changed.refused}"]
    count = len(changed.differences)
    lines = [f"paths {changed.paths}: {count} rest on look-ups outside the tables, {percent(count, changed.paths):.1f}%"]
    if count:
        lines[0] += f"; {' and '.join(changed.values)} differ by at most {largest(changed)} ps"
    return lines + change_lines(changed, "outside", most)


def slew_lines(changed, own, most):
    other = changed.values[1 - changed.values.index(own)]
    if changed.refused:
        return [f"slews behind wires: {own}; with {other} the run is refused: {changed.refused}"]
    moved = f"with {other} {changed.moved} of {changed.delays} delays of paths change, by at most {largest(changed)} ps"
    return [f"slews behind wires: {own}; {moved}", *change_lines(changed, "changed", most)]


def as_text(covered, most):
    count, without = len(covered.nets), covered.without
    lines = [f"nets {count}: with parasitics {count - len(without)}, without {len(without)}"]
    lines += [f"  without: {shown(net.name)} driven by {shown(net.driver)}" for net in without]
    lines += outside_lines(covered.outside, most)
    lines += slew_lines(covered.slews, covered.wire_slew, most)
    return "".join(line + "\n" for line in lines)


def difference_object(changed, one):
    """A path, and its delays in picoseconds with both values of the key."""
    instance, first, second = map(shown, one.row.names)
    corner = one.member if changed.corners == MEMBERS else ONLY
    delays = dict(zip(changed.values, map(number, (one.first, one.second))))
    return {"instance": instance, "from": first, "to": second, "edge": one.edge, "corner": corner, "delays": delays}


def change_object(changed):
    if changed.refused:
        return {"refused": changed.refused}
    differ = [difference_object(changed, one) for one in changed.differences]
    return {"paths": changed.paths, "delays": changed.delays, "changed_delays": changed.moved, "changed_paths": differ}


def as_json(covered, _):
    without = [{"net": shown(net.name), "driver": shown(net.driver)} for net in covered.without]
    outside = change_object(covered.outside)
    if not covered.outside.refused:
        outside["percent"] = percent(len(covered.outside.differences), covered.outside.paths)
    slews = {"own": covered.wire_slew, **change_object(covered.slews)}
    told = {"nets": len(covered.nets), "without": without, "unit": "ps", "outside": outside, "wire_slew": slews}
    return json.dumps(told, indent=1) + "\n"


FORMATS = {"text": as_text, "json": as_json}
