"""What reasons, refusals and states mean, in one sentence each. docs/reference.md has the rules by which they are given."""

SENTENCES = {
    "Accepted": "It is accepted.",
    "AddressNotAssigned": "No door was given for the Gateway, so it has no address.",
    "AddressNotUsable": "The Gateway asks for an address that is not the one of its doors.",
    "BackendNotFound": "A backendRef names a Service, or a port of a Service, that does not exist.",
    "HostnameConflict": "Another HTTP listener of the Gateway has the same port and the same hostname.",
    "IncompatibleFilters": "A rule has filters that cannot be together.",
    "Invalid": "It is not accepted, or it lacks something that it needs to serve requests.",
    "InvalidKind": "A backendRef names something that is not a Service, or a Service of type ExternalName.",
    "InvalidParameters": "The class has a parametersRef, and none is supported.",
    "InvalidRouteKinds": "The listener names a kind of Route that is not supported.",
    "ListenersNotValid": "At least one listener is not accepted.",
    "NoConflicts": "The listener is in conflict with no other one.",
    "NoMatchingListenerHostname": "No listener that allows the Route has a hostname in common with it.",
    "NoMatchingParent": "The Gateway has no listener with the sectionName and the port of the parentRef.",
    "NotAllowedByListeners": "None of the listeners to which the parentRef refers allows the Route.",
    "PortUnavailable": "No door was given for the port of the listener.",
    "Programmed": "Requests are taken for it.",
    "ProtocolConflict": "Another listener of the Gateway has the same port and another protocol.",
    "RefNotPermitted": "A backendRef names another namespace, and no ReferenceGrant permits it.",
    "ResolvedRefs": "All references are resolved.",
    "UnsupportedAddress": "The Gateway asks for an address of another type than IPAddress.",
    "UnsupportedProtocol": "The protocol is not supported: HTTP/1.1 without TLS is.",
    "UnsupportedValue": "A rule asks for something that is not supported.",
}

# The refusals of a line, by their numbers.
REFUSALS = {
    0: "NoMemory", 1: "NotJson", 2: "NotEvent", 3: "Missing", 4: "WrongType", 5: "BadValue", 6: "TooLong", 7: "Full", 8: "NotStep"}

# What to do about each.
REMEDIES = {
    0: "Memory was wanting: send the line again.",
    1: "Each event stands in one line of its own, as `jq -c` writes it.",
    2: "An object needs an event around it: jq -c '{type: \"ADDED\", object: .}'",
    3: "Give the object the field of the path.",
    4: "Write the field in the JSON type that it has: a port is a number without quotes.",
    5: "Bring the field into its form or range.",
    6: "Shorten the text, the list or the line.",
    7: "Delete objects, or give this program those of fewer namespaces.",
    8: "Write the step in one of the forms of docs/reference.md.",
}

# Why a Route serves a request or doesn't, as `explain` says it.
CHOICES = {
    "OtherListener": "It has no row at the listener that takes the request.",
    "Hostname": "It has no hostname that covers the request's host.",
    "Path": "It has the hostname, and no match with this path.",
    "Method": "It has a match with this path, and none with this method.",
    "Headers": "It has a match with this method, and none whose headers fit.",
    "Query": "It lacks a query parameter alone.",
    "Preceded": "It fits, and another Route stands before it.",
    "Chosen": "It serves the request.",
}

# Why a backendRef isn't resolved.
STATES = {
    "InvalidKind": "It is no Service, or one of type ExternalName.",
    "NotPermitted": "It is in another namespace, and no ReferenceGrant permits it.",
    "NotFound": "There is no such Service, or it has no such TCP port.",
    "BadProtocol": "The port speaks another protocol than HTTP/1.1 without TLS.",
}


def sentence(reason):
    return SENTENCES.get(reason, f"The reason is {reason}.")
