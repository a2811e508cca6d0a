"""Descriptions of FMUs, by hand-written XML."""

import io
import os
import stat
import zipfile
from unittest import mock

from in_folder import InFolder
from egasim_tools.engine import fmu_description as descriptions
from egasim_tools.engine.fmu_description import described, listed, unpacked
from notes import note_of

HEAD = '<fmiModelDescription fmiVersion="2.0" modelName="m" guid="{1}">'
GOOD = HEAD + """<CoSimulation modelIdentifier="m"/>
<TypeDefinitions><SimpleType name="T"><Real unit="K"/></SimpleType></TypeDefinitions>
<ModelVariables>
<ScalarVariable name="a" valueReference="7" causality="input"><Real start="1.5"/></ScalarVariable>
<ScalarVariable name="b" valueReference="4294967295"><Enumeration declaredType="E"/></ScalarVariable>
<ScalarVariable name="c" valueReference="0" causality="output"><Annotations/><Real declaredType="T"/></ScalarVariable>
<ScalarVariable name="d" valueReference="1" causality="parameter"><Real unit="s" declaredType="T"/></ScalarVariable>
<ScalarVariable name="e" valueReference="1" causality="input"><String start="x"/></ScalarVariable>
</ModelVariables></fmiModelDescription>"""


class Descriptions(InFolder):
    def test_variables_have_kinds_and_units(self):
        held = described("m", GOOD.encode())
        self.assertEqual((held.model, held.guid, held.identifier), ("m", "{1}", "m"))
        self.assertEqual([(one.reference, one.kind, one.causality, one.unit) for one in held.variables.values()],
                         [(7, "Real", "input", None), (4294967295, "Integer", "local", None), (0, "Real", "output", "K"),
                          (1, "Real", "parameter", "s"), (1, "String", "input", None)])
        self.assertEqual(list(listed(held))[:2], ["input Real a: unit -, start 1.5", "local Integer b: unit -, start -"])

    def test_what_is_no_description(self):
        for before, after, said in ((GOOD, "", "not XML: no element found: line 1, column 0"),
                                    ('"2.0"', '"3.0"', "FMI 2.0 is wanted, and this is 3.0"),
                                    ("CoSimulation", "ModelExchange", "the FMU isn't for co-simulation"),
                                    ("CoSimulation", 'CoSimulation needsExecutionTool="true"', "the FMU needs the tool that made it"),
                                    ('Identifier="m"', 'Identifier="../m"', "no guid, or no modelIdentifier that names a file"),
                                    ('guid="{1}"', "", "no guid, or no modelIdentifier that names a file"),
                                    ('Reference="7"', 'Reference="-7"', "a variable lacks its name, its kind or its value reference: a"),
                                    ('Reference="4294967295"', 'Reference="4294967296"', "a variable lacks its name, its kind or its value reference: b"),
                                    ('<Real start="1.5"/>', "", "a variable lacks its name, its kind or its value reference: a"),
                                    ('name="a"', "", "a variable lacks its name, its kind or its value reference: None")):
            self.assertEqual(note_of(described, "m", GOOD.replace(before, after).encode()).removeprefix("m: "), said)
        self.assertEqual(note_of(described, "m", b"<html/>"), "m: FMI 2.0 is wanted, and this is html")

    def test_a_description_has_bounds(self):
        note = "m: more than 9 elements and attributes"
        with mock.patch.object(descriptions, "MOST_PARTS", 9):
            self.assertEqual(note_of(described, "m", GOOD.encode()), note)
            self.assertEqual(note_of(described, "m", f"{HEAD}{'<a/>' * 5}</fmiModelDescription>".encode()),
                             "m: the FMU isn't for co-simulation")
            self.assertEqual(note_of(described, "m", f"{HEAD}{'<a/>' * 6}</fmiModelDescription>".encode()), note)
        entities = f'<!DOCTYPE a [<!ENTITY b "{"c" * 999}">]>{GOOD}'
        self.assertEqual(note_of(described, "m", entities.encode()), "m: a document type, which no FMU has")


LIBRARY = "binaries/linux64/m.so"


class Archives(InFolder):
    def archive(self, parts=(), method=zipfile.ZIP_DEFLATED):
        """An FMU of this description and a library, with other parts: (name, content, mode)."""
        content = io.BytesIO()
        with zipfile.ZipFile(content, "w", method) as archive:
            for name, text, mode in [("modelDescription.xml", GOOD, 0), (LIBRARY, "library", 0), *parts]:
                part = zipfile.ZipInfo(name)
                part.external_attr, part.compress_type = mode << 16, method
                archive.writestr(part, text)
        return content.getvalue()

    def unpack(self, content):
        self.put("m.fmu", content)
        os.makedirs("room", exist_ok=True)
        return note_of(unpacked, "m.fmu", "room")

    def test_library_and_resources_are_unpacked_alone(self):
        self.assertIsNone(self.unpack(self.archive([("resources/a/b", "b", 0), ("sources/c", "c", 0), ("resources/d/", "", 0)])))
        self.assertEqual(sorted(os.listdir("room")), ["binaries", "resources"])
        self.assertEqual(sorted(os.listdir("room/resources")), ["a", "d"])

    def test_an_archive_that_is_cut_is_told_by_its_name(self):
        whole = self.archive()
        for count in range(len(whole)):
            self.assertRegex(self.unpack(whole[:count]), "^m.fmu is no FMU: .", count)
            self.assertRegex(self.unpack(whole[count + 1:]), "^m.fmu is no FMU: .", count)

    def test_a_part_that_cannot_be_unpacked_is_told(self):
        for parts, note in ((["resources/a", "resources/a/b"], "resources/a/b can't be unpacked: Not a directory"),
                            (["resources/a/b", "resources/a"], "resources/a can't be unpacked: Is a directory"),
                            ([f"{LIBRARY}/b"], f"{LIBRARY}/b can't be unpacked: Not a directory")):
            os.mkdir("room")
            self.assertEqual(self.unpack(self.archive([(name, "", 0) for name in parts])), f"m.fmu: {note}")
            os.rename("room", f"old{len(os.listdir())}")
        link = self.archive([("resources/a", "/etc", stat.S_IFLNK | 0o777), ("resources/a/b", "", 0)])
        self.assertEqual(self.unpack(link), "m.fmu: resources/a is a link, and files are wanted")

    def test_an_archive_has_bounds(self):
        for method in (zipfile.ZIP_LZMA, zipfile.ZIP_BZIP2):
            self.assertEqual(self.unpack(self.archive(method=method)), "m.fmu: modelDescription.xml is compressed otherwise than by deflate")
        with mock.patch.object(descriptions, "MOST_DESCRIBED", len(GOOD) - 1):
            self.assertEqual(self.unpack(self.archive()), f"m.fmu: modelDescription.xml has more than {len(GOOD) - 1} bytes")
        with mock.patch.object(descriptions, "MOST_BYTES", len(self.archive()) - 1):
            self.assertEqual(self.unpack(self.archive([("x", "x" * 9999, 0)])), f"m.fmu: more than {len(self.archive()) - 1} bytes in the archive")
