"""What an FMU for co-simulation (FMI 2.0) is made of: an archive with a description in XML and a library for Linux."""

import io
import os
import stat
import struct
import zipfile
import zlib
from types import SimpleNamespace
from xml.etree import ElementTree

from egasim_tools.base.files import MOST_BYTES, read
from egasim_tools.base.tool import fail

DESCRIPTION, LIBRARIES, RESOURCES = "modelDescription.xml", "binaries/linux64", "resources"
MOST_DESCRIBED, MOST_PARTS = 1 << 24, 1 << 19  # bytes of a description; its elements and attributes
KINDS = ("Real", "Integer", "Boolean", "String", "Enumeration")
BROKEN = (zipfile.BadZipFile, zlib.error, struct.error, EOFError, NotImplementedError, RuntimeError, ValueError)


def unpacked(name, room):
    """The description of an FMU, whose library and resources are put into the folder `room`."""
    try:
        archive = zipfile.ZipFile(io.BytesIO(read(name)))
        parts = {part.filename: part for part in archive.infolist()}
        if sum(part.file_size for part in archive.infolist()) > MOST_BYTES:
            fail(f"{name}: more than {MOST_BYTES} bytes in the archive")
        if DESCRIPTION not in parts:
            fail(f"{name} is no FMU: it has no {DESCRIPTION}")
        if parts[DESCRIPTION].file_size > MOST_DESCRIBED:
            fail(f"{name}: {DESCRIPTION} has more than {MOST_DESCRIBED} bytes")
        check(name, parts[DESCRIPTION])
        description = described(f"{name}: {DESCRIPTION}", archive.read(DESCRIPTION))
        wanted = f"{LIBRARIES}/{description.identifier}.so"
        if wanted not in parts:
            fail(f"{name} has no library for 64-bit Linux: {wanted} isn't in it")
        for part in parts.values():
            if part.filename.startswith((f"{LIBRARIES}/", f"{RESOURCES}/")):
                put(name, archive, part, room)
    except BROKEN as error:
        fail(f"{name} is no FMU: {str(error) or 'it ends too soon'}")
    description.library, description.resources = os.path.join(room, wanted), os.path.join(room, RESOURCES)
    return description


def check(name, part):
    """Ends if a file of an archive is a link, or compressed as no FMU is, which may take any memory."""
    if part.compress_type not in (zipfile.ZIP_STORED, zipfile.ZIP_DEFLATED):
        fail(f"{name}: {part.filename} is compressed otherwise than by deflate")
    if stat.S_ISLNK(part.external_attr >> 16):
        fail(f"{name}: {part.filename} is a link, and files are wanted")


def put(name, archive, part, room):
    """Puts a file of an archive into a folder."""
    check(name, part)
    try:
        archive.extract(part, room)
    except OSError as error:
        fail(f"{name}: {part.filename} can't be unpacked: {error.strerror}")


class Parts(ElementTree.TreeBuilder):
    """The tree of a description, within bounds: of its parts, and without entities, which may make a long text of a short one."""

    def __init__(self, name):
        super().__init__()
        self.name, self.count = name, 0

    def start(self, tag, attrs):
        self.count += 1 + len(attrs)
        if self.count > MOST_PARTS:
            fail(f"{self.name}: more than {MOST_PARTS} elements and attributes")
        return super().start(tag, attrs)

    def doctype(self, *_):
        fail(f"{self.name}: a document type, which no FMU has")


def described(name, content):
    """What a description says: model, GUID, the library's name, and the variables by their names."""
    try:
        root = ElementTree.fromstring(content, ElementTree.XMLParser(target=Parts(name)))
    except (ElementTree.ParseError, LookupError, ValueError) as error:
        fail(f"{name}: not XML: {error}")
    version = root.get("fmiVersion")
    if root.tag != "fmiModelDescription" or version != "2.0":
        fail(f"{name}: FMI 2.0 is wanted, and this is {version or root.tag}")
    simulated = root.find("CoSimulation")
    if simulated is None:
        fail(f"{name}: the FMU isn't for co-simulation")
    if simulated.get("needsExecutionTool") == "true":
        fail(f"{name}: the FMU needs the tool that made it")
    identifier, guid = simulated.get("modelIdentifier"), root.get("guid")
    if not guid or not identifier or "/" in identifier:
        fail(f"{name}: no guid, or no modelIdentifier that names a file")
    units = {kind.get("name"): inner.get("unit") for kind in root.iterfind("TypeDefinitions/SimpleType") for inner in kind}
    variables = [variable_of(name, element, units) for element in root.iterfind("ModelVariables/ScalarVariable")]
    return SimpleNamespace(model=root.get("modelName"), guid=guid, identifier=identifier,
                           variables={variable.name: variable for variable in variables})


def variable_of(name, element, units):
    """A variable: its reference, its kind, what it is for, and its unit if it has one."""
    variable, reference = element.get("name"), element.get("valueReference", "")
    kind = next((inner for inner in element if inner.tag in KINDS), None)
    if not variable or kind is None or not (reference.isascii() and reference.isdigit() and int(reference) < 2**32):
        fail(f"{name}: a variable lacks its name, its kind or its value reference: {variable}")
    unit = kind.get("unit") or units.get(kind.get("declaredType"))
    number = "Integer" if kind.tag == "Enumeration" else kind.tag  # by the functions of which it is set
    return SimpleNamespace(name=variable, reference=int(reference), kind=number, start=kind.get("start"), unit=unit,
                           causality=element.get("causality", "local"))


def listed(description):
    """A line for each variable: what it is for, its kind, its unit and its start."""
    for variable in description.variables.values():
        unit, start = variable.unit or "-", "-" if variable.start is None else variable.start
        yield f"{variable.causality} {variable.kind} {variable.name}: unit {unit}, start {start}"
