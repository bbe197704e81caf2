"""Runs a measuring program over crates of this project. It is made in a copy of them, since a program is a crate of its own."""
import os
import shutil
import subprocess
import sys
import tempfile

from support.program import TOP

# Of a program: a class, a Gateway with one listener and its door, the lines of a Route with a hostname of its own, of a Service and of a slice with one
# address, and a world that takes a line.
OBJECTS = r"""const CLASS: &str =
    r#"{"type":"ADDED","object":{"apiVersion":"gateway.networking.k8s.io/v1","kind":"GatewayClass","metadata":{"name":"c"},"spec":{"controllerName":"gateward.example/controller"}}}"#;

const GATEWAY: &str =
    r#"{"type":"ADDED","object":{"apiVersion":"gateway.networking.k8s.io/v1","kind":"Gateway","metadata":{"name":"g"},"spec":{"gatewayClassName":"c","listeners":[{"name":"http","port":80,"protocol":"HTTP"}]}}}"#;

const CONTROLLER: &str = "gateward.example/controller";

fn route(alloc: Global, number: u32, service: u32, path: u32) -> Result<String, NoMemory> {
    format!(in alloc;
        r#"{{"type":"ADDED","object":{{"apiVersion":"gateway.networking.k8s.io/v1","kind":"HTTPRoute","metadata":{{"name":"r{number}"}},"spec":{{"hostnames":["h{number}.example.com"],"parentRefs":[{{"name":"g"}}],"rules":[{{"backendRefs":[{{"name":"s{service}","port":80}}],"matches":[{{"path":{{"value":"/p{path}"}}}}]}}]}}}}}}"#
    )
}

fn service(alloc: Global, number: u32) -> Result<String, NoMemory> {
    format!(in alloc;
        r#"{{"type":"ADDED","object":{{"apiVersion":"v1","kind":"Service","metadata":{{"name":"s{number}"}},"spec":{{"ports":[{{"port":80}}]}}}}}}"#
    )
}

fn slice(alloc: Global, number: u32, address: u32) -> Result<String, NoMemory> {
    format!(in alloc;
        r#"{{"type":"ADDED","object":{{"apiVersion":"discovery.k8s.io/v1","kind":"EndpointSlice","metadata":{{"name":"s{number}-a","labels":{{"kubernetes.io/service-name":"s{number}"}}}},"addressType":"IPv4","ports":[{{"port":8080}}],"endpoints":[{{"addresses":["10.0.0.{address}"]}}]}}}}"#
    )
}

fn put(alloc: Global, world: &mut World, line: &str) -> Option<()> {
    let Ok(Read::Change(event)) = read_event(alloc, line.as_bytes()) else {
        return None;
    };
    world.check(&event).ok()?;
    world.reserve().ok()?;
    world.put(event, Second(0));
    Some(())
}

fn doors(alloc: Global) -> Option<Doors> {
    let mut doors = Vec::new(alloc);
    doors.push(Door::parse(alloc, "default/g:80=127.0.0.1:18080").ok()?).ok()?;
    Doors::new(alloc, doors).ok()
}
"""

# A function of a program: the table of the first door in a world.
FIRST_TABLE = r"""// The table of the first door.
fn first_table(alloc: Global, world: &World, doors: &Doors, controller: &Text) -> Result<Option<DoorTable>, NoMemory> {
    if doors.doors().is_empty() {
        return Ok(None);
    }
    // The Routes stand in key order, so the rows of the door are such as a table is made of.
    let _routes = world.routes();
    rows_of_a_door_stand_listener_by_listener();
    let rows = eval_rows(alloc, world, doors, controller, 0)?;
    Ok(Some(DoorTable::compile(alloc, rows)?))
}

"""

FIRST_REQUEST = r"""// The request that bytes begin with, if they hold one whole.
fn first_request(alloc: Global, bytes: &[u8]) -> Result<Option<Request>, NoMemory> {
    let mut inlet = Inlet::new(alloc);
    inlet.feed(bytes)?;
    match inlet.next()? {
        Step::Ask(request) => Ok(Some(Box::into_inner(request))),
        _ => Ok(None),
    }
}

"""

# Where the Routes stand in key order, the rows of a door are such as a table is made of.
TABLE_PROOFS = {"proofs/first_table/Answers.antt": """use Rattle.std.proofs.Common.{[], subst, sym}
use Rattle.gw_match.specs.model.Listed.{AreRowsOfDoor}
use Rattle.gw_text.specs.model.Doors.{Door}
use Rattle.measured.proofs.first_table.Goals as goal

-- a door, which one doesn't matter
some_door : Door
some_door = record { gateway = record { namespace = []; name = [] }; port = 0; at = record { a = 0; b = 0; c = 0; d = 0; port = 0 } }

pub compile-requires : goal.compile-requires
compile-requires c =
    subst AreRowsOfDoor (sym (c.in_ok-rows.ensures some_door))
    (c.rows_of_a_door_stand_listener_by_listener.ensures _ _ _ _ (rw c.routes-routes.ensures.value at c.routes-routes.ensures.order))
"""}


def stands_on():
    """What each crate stands on, by crates.txt, and its line there, which has to stay as it is: a library that was built is one of that line."""
    crates, lines = {}, {}
    with open(os.path.join(TOP, "crates.txt")) as file:
        for line in file:
            words, colon, below = line.partition(":")
            if colon and not words.startswith("#"):
                name = words.split()[0]
                crates[name], lines[name] = below.split(), line
    return crates, lines


def run_program(source, below, proofs=None):
    """The lines that a program prints, whose main.rt is this text and which stands on these crates; `proofs` has the texts of its further
    files by their paths."""
    crates, lines = stands_on()
    wanted, left = [], list(below)
    while left:
        name = left.pop()
        if name in crates and name not in wanted:
            wanted.append(name)
            left.extend(crates[name])
    with tempfile.TemporaryDirectory() as folder:
        for name in wanted:
            shutil.copytree(os.path.join(TOP, "crates", name), os.path.join(folder, "crates", name))
        program = os.path.join(folder, "crates", "measured")
        os.makedirs(os.path.join(program, "src"))
        with open(os.path.join(program, "src", "main.rt"), "w") as file:
            file.write(source)
        for path, text in (proofs or {}).items():
            os.makedirs(os.path.dirname(os.path.join(program, path)), exist_ok=True)
            with open(os.path.join(program, path), "w") as file:
                file.write(text)
        with open(os.path.join(folder, "crates.txt"), "w") as file:
            file.writelines(lines[name] for name in crates if name in wanted)
            file.write("measured: %s\n" % " ".join(below))
        run = subprocess.run(["rt", "run"], cwd=program, stdin=subprocess.DEVNULL, stdout=subprocess.PIPE,
                             stderr=subprocess.STDOUT, text=True)
    if run.returncode != 0:
        sys.exit(run.stdout[-4000:])
    return run.stdout.splitlines()
