"""What is wrong that no single line of the statuses says: DOORs without a Gateway or a listener, and Gateways and listeners without a DOOR."""
from dataclasses import dataclass, field

from .objects import Objects
from .texts import Status


@dataclass
class Picture:
    """All that is known."""
    status: Status
    objects: Objects = field(default_factory=Objects)
    doors: list = field(default_factory=list)
    rows: list = None

    def doors_of(self, gateway):
        return [door for door in self.doors if door.gateway == gateway]

    def gateway(self, key):
        return next((it for it in self.status.gateways if it.key == key), None)

    def port(self, gateway, listener):
        """A listener's port: from its Gateway, or from a door by which it has rows."""
        port = self.objects.listener(gateway, listener).get("port")
        if port is None:
            places = {row["door"] for row in self.rows or [] if row["listener"] == listener and row["door"] < len(self.doors)}
            port = next((self.doors[it].port for it in sorted(places) if self.doors[it].gateway == gateway), None)
        return port

    def listener_place(self, route, parent):
        """The listeners at which a Route has rows, where rows are known."""
        doors = {place for place, door in enumerate(self.doors) if door.gateway == parent.gateway}
        return [row["listener"] for row in self.rows or [] if row["route"] == route and row["door"] in doors]


def words_to_add(picture, gateway, ports, taken):
    """DOORs that aren't given yet. Their sockets have the address of the Gateway's other doors, and ports that no door has."""
    address = next((door.address for door in picture.doors_of(gateway)), "127.0.0.1")
    found = []
    for port in sorted(ports) or ["PORT"]:
        free = next(it for it in range(18080, 65536) if it not in taken)
        taken.add(free)
        found.append(f"{gateway}:{port}={address}:{free}")
    return " ".join(found)


def of_doors(picture):
    """What is wrong with each DOOR."""
    for number, door in enumerate(picture.doors):
        gateway = picture.gateway(door.gateway)
        if gateway is None:
            yield (f"DOOR {number}, {door.word}: no Gateway {door.gateway} has a status. Either it isn't there, or its GatewayClass isn't, or "
                   "isn't this controller's, or isn't accepted.")
            continue
        ports = {picture.port(gateway.key, listener.name) for listener in gateway.listeners}
        # (a listener is PortUnavailable where no DOOR of its Gateway has its port)
        none_fits = all(it.conditions["Accepted"].reason == "PortUnavailable" for it in gateway.listeners)
        if none_fits or None not in ports and door.port not in ports:
            there = f" Its listeners have {', '.join(str(it) for it in sorted(ports))}." if None not in ports else ""
            yield f"DOOR {number}, {door.word}: no listener of {door.gateway} has the port {door.port}.{there}"


def of_gateways(picture):
    """Which Gateways and listeners have no DOOR. Of a listener that no DOOR can help the port isn't asked for."""
    taken = {door.socket_port for door in picture.doors}
    for gateway in picture.status.gateways:
        lacking = [it for it in gateway.listeners if it.conditions["Accepted"].reason == "PortUnavailable"]
        ports = {picture.port(gateway.key, it.name) for it in lacking} - {None}
        has_none = gateway.conditions["Programmed"].reason == "AddressNotAssigned"
        if not has_none and not lacking:
            continue
        what = f"Gateway {gateway.key}" if has_none else f"Listener {', '.join(it.name for it in lacking)} of {gateway.key}"
        yield (f"{what} has no DOOR{'' if has_none else ' for its port'}. Add to the words of gateward: "
               f"{words_to_add(picture, gateway.key, ports, taken)}{'' if ports else ', with the port of its listener'}")


def of_classes(picture):
    if not picture.status.classes:
        yield "No GatewayClass is this controller's: give one the controllerName of --controller, gateward.example/controller by default."


def findings(picture):
    return [*of_classes(picture), *of_doors(picture), *of_gateways(picture)]
