"""Real sets: what protoc makes of .proto files, ours and those that Debian's packages ship."""

import pathlib
import subprocess
import tempfile

from wire import options

PROTOS = pathlib.Path(__file__).parent.parent / "protos"
DEBIAN = [pathlib.Path("/usr/include"), pathlib.Path("/usr/share/grpc-proto")]
LIMIT = 32768

TYPES = [(12, "", "::prost_types")]
SETTINGS = [
    [],
    TYPES,
    [(11, "", ""), (10, "", "crate::prost"), (3, ".", ""), (2, ".", "")],
    [
        (1, ".chair.drive", "crate::Board::drive"),
        (1, ".chair.input.Axis", "::axes::Axis"),
        (5, ".", "#[derive(Eq)]"),
        (6, "Joystick.serial", "#[serde(skip)]"),
        (6, "source", "#[oneof]"),
        (7, ".google.protobuf", "#[known]"),
        (8, "Kind", "#[kind]"),
        (4, "gain", ""),
        (4, "Stage.top", ""),
        (9, ".chair", ""),
    ],
    TYPES
    + [(4, ".", ""), (9, ".", ""), (3, "stop_at", ""), (2, "raw_report", ""), (2, ".value", "")],
]


def protoc(root, file, imports):
    """The set of a file, without source info; none if protoc can't or it is too long."""
    with tempfile.NamedTemporaryFile() as out:
        command = ["protoc", f"--descriptor_set_out={out.name}"]
        command += [f"-I{each}" for each in (root, *DEBIAN)]
        command += ["--include_imports"] if imports else []
        run = subprocess.run(command + [str(file)], stderr=subprocess.DEVNULL, check=False)
        found = pathlib.Path(out.name).read_bytes()
    return found if run.returncode == 0 and 0 < len(found) <= LIMIT else None


def real_sets():
    """Each file with its imports, so that every type name is in the set."""
    for root in (PROTOS, *DEBIAN):
        folder = root / "google/protobuf" if root == DEBIAN[0] else root
        for file in sorted(folder.rglob("*.proto")):
            found = protoc(root, file, True)
            if found is not None:
                yield found


def real_cases():
    for found in real_sets():
        for rows in SETTINGS:
            yield found, options(rows)
