"""Copies of a document that tell of its steps.

A *way* leads to a step: the names of the steps from the main flow inwards, each of which opens the flow of the next.

A copy keeps what the wanted steps are made from, in the main flow and in each flow on the way to them, and hands what they give
out to the outputs of its main flow. Its jobs have the names that they have in the document. Control links are left out, as they
change no value.
"""
import heapq

DEEPEST, MOST_OUTPUTS = 32, 16
ADDED = ("added_1", "added_2")


def services_first(step):
    """A step's activities before the first that opens a flow. None of those behind that one is ever tried."""
    found = []
    for activity in step["activities"]:
        if "flow" in activity:
            break
        found.append(activity)
    return found


def flow_opened(step):
    """The name of the flow that a step's jobs open, where they open one."""
    return next((it["flow"] for it in step["activities"] if "flow" in it), None)


def steps_of(flow):
    return flow.get("steps", {})


def links_of(feed):
    return feed.get("merge", [feed])


def made_from(flow, names):
    """These steps of a flow and those that they are made from."""
    found, todo = set(), list(names)
    while todo:
        name = todo.pop()
        if name not in found:
            found.add(name)
            for port in steps_of(flow)[name].get("inputs", {}).values():
                todo += [link["step"] for link in links_of(port["from"]) if "step" in link]
    return {name: {key: it for key, it in steps_of(flow)[name].items() if key != "after"} for name in sorted(found)}


def in_order(flow):
    """The names of a flow's steps, each behind those that it is made from or runs after; the least name first of all that can
    be next."""
    before = {
        name: {link["step"] for port in step.get("inputs", {}).values() for link in links_of(port["from"]) if "step" in link}
        | set(step.get("after", []))
        for name, step in steps_of(flow).items()
    }
    behind = {name: [] for name in before}
    for name, those in before.items():
        for it in those:
            behind[it].append(name)
    wanting = {name: len(those) for name, those in before.items()}
    found, ready = [], [name for name, number in wanting.items() if not number]
    heapq.heapify(ready)
    while ready:
        found.append(heapq.heappop(ready))
        for name in behind[found[-1]]:
            wanting[name] -= 1
            if not wanting[name]:
                heapq.heappush(ready, name)
    return found


def with_outputs(document):
    """The document in which each step without outputs has two, and each flow without them.

    A service gives one value. So it is as wrong for a step with two outputs as for one with none, and with the same reason.
    """
    made = dict(document, flows={})
    for name, flow in document["flows"].items():
        steps = {it: dict(step, outputs=step.get("outputs") or dict.fromkeys(ADDED, 0)) for it, step in steps_of(flow).items()}
        outputs = flow["outputs"] or {port: {"constant": ""} for port in ADDED}
        made["flows"][name] = dict(flow, steps=steps, outputs=outputs)
    return made


def is_without_outputs(document):
    return any(not step.get("outputs") for flow in document["flows"].values() for step in steps_of(flow).values())


class Copies:
    """Makes copies of a document, of which the check told these depths."""

    def __init__(self, document, depths):
        self.flows, self.main, self.document, self.depths = document["flows"], document["main"], document, depths

    def flow_of(self, way):
        """The name of the flow that a way opens; the main flow's for the empty one."""
        flow = self.main
        for step in way:
            flow = flow_opened(steps_of(self.flows[flow])[step])
        return flow

    def port_of(self, flow, step):
        """The least deep output of a step, as its declared and its delivered depth and its name; None where it has none."""
        ports = steps_of(self.flows[flow])[step].get("outputs", {})
        return min(((*self.depths["out", flow, step, port], port) for port in ports), default=None)

    def levels(self, flow, step):
        """How many levels a step iterates over."""
        declared, delivered, _ = self.port_of(flow, step)
        return delivered - declared

    def levels_of_way(self, way):
        return [self.levels(self.flow_of(way[:number]), step) for number, step in enumerate(way)]

    def can_tell(self, way, step):
        """Whether an output of that step, of the flow that the way opens, can be handed out."""
        flow = self.flow_of(way)
        ports = [self.port_of(flow, step), *(self.port_of(self.flow_of(way[:number]), it) for number, it in enumerate(way))]
        return all(ports) and sum(self.levels_of_way(way)) + ports[0][1] <= DEEPEST

    def copy(self, way, steps, without_flow=False):
        """A copy with an output p0, p1 .. for each of these steps of the flow that the way opens; `without_flow` leaves
        of their activities the services before the flow."""
        flow = self.flow_of(way)
        ports = [self.port_of(flow, step) for step in steps]
        outputs = {f"p{number}": {"step": step, "port": port[2]} for number, (step, port) in enumerate(zip(steps, ports))}
        depths = {f"p{number}": port[1] for number, port in enumerate(ports)}
        kept = made_from(self.flows[flow], steps)
        for step in steps if without_flow else ():
            kept[step]["activities"] = services_first(kept[step])
        made, below = {}, None
        for number in range(len(way), -1, -1):
            name = self.flow_of(way[:number])
            if number < len(way):
                step = way[number]
                kept = made_from(self.flows[name], [step])
                kept[step].update(activities=[{"flow": below}], outputs=depths)
                outputs = {port: {"step": step, "port": port} for port in depths}
                depths = {port: depth + self.levels(name, step) for port, depth in depths.items()}
            below = name if number == 0 else self.fresh_name(number)
            made[below] = dict(self.flows[name], steps=kept, outputs=outputs)
        return dict(self.document, flows=self.reached(made))

    def fresh_name(self, number):
        name = f"way_{number}"
        while name in self.flows:
            name += "_"
        return name

    def reached(self, made):
        """These flows, of which the main one is one, and those that their steps open."""
        found, todo = {}, [self.main]
        while todo:
            name = todo.pop()
            if name not in found:
                found[name] = made.get(name) or self.flows[name]
                todo += [it["flow"] for step in steps_of(found[name]).values() for it in step["activities"] if "flow" in it]
        return found
